//! The sample book, and books that are cut anywhere.
use bulmegart::book::{bulmegart_book_finish, bulmegart_book_feed, RawBookAnswer, ANSWER, HELD, NUMBERS};
use bulmegart::Book;

const SAMPLE: &[u8] = include_bytes!("../../../crates/book/stdin");
const ANSWERS: &[u8] = include_bytes!("../../../crates/book/stdout");

fn answered(book: &[u8], cut: usize) -> (String, [u64; NUMBERS]) {
    let (mut reading, mut answers) = (Book::new(), Vec::new());
    for piece in book.chunks(cut) {
        reading.feed(piece, &mut answers);
    }
    let tally = reading.finish(&mut answers);
    (String::from_utf8(answers).unwrap(), tally)
}

fn frame(header: &str, payload: &str) -> String {
    format!("{header}{:04x}{}{payload}", payload.len() / 2, "9a".repeat(130))
}

#[test]
fn the_sample_however_it_is_cut() {
    for cut in [1, 2, 7, 64, 281, 4_095, 4_096, 4_097, 1 << 20] {
        let (answers, tally) = answered(SAMPLE, cut);
        assert_eq!(answers.as_bytes(), ANSWERS, "pieces of {cut}");
        assert_eq!(tally.iter().sum::<u64>(), 35);
        assert_eq!((tally[0], tally[1], tally[4], tally[5], tally[8]), (31, 1, 1, 1, 1));
    }
}

#[test]
fn the_one_line_book_of_document_02() {
    assert_eq!(answered(format!("{}\n", frame("020100081a00", "00")).as_bytes(), 100).0, "1 no 1\n");
}

#[test]
fn forms_and_their_order() {
    let good = frame("020100081a00", "fe80");
    let longest = frame("020100081a00", &"55".repeat(4_096));
    let lines = [
        (good.clone() + "\n", "1 ok 1 0\n"),
        (good.clone(), "1 no 20\n"),
        (String::new(), ""),
        ("\n".into(), "1 no 21\n"),
        (good.to_uppercase() + "\n", "1 no 20\n"),
        (longest.clone() + "\n", "1 ok 5 0\n"),
        (longest.clone() + "\r\n", "1 no 22\n"),
        (longest.clone(), "1 no 20\n"),
        (longest.clone() + "0g", "1 no 22\n"),
        ("abc\n".into(), "1 no 20\n"),
        (good[..274].to_string() + "\n", "1 no 21\n"),
        (good.replacen("0002", "0200", 1) + "\n", "1 no 21\n"),
    ];
    for (book, wanted) in lines {
        assert_eq!(answered(book.as_bytes(), 1_000).0, wanted, "{}", &book[..book.len().min(40)]);
    }
}

#[test]
fn what_a_call_refuses_it_leaves() {
    let (mut buffer, mut tally, mut room) = (vec![7; HELD + 1], [9; NUMBERS], vec![5; ANSWER * 4]);
    let piece = b"\n\n\n\n\n";
    let mut call = |length: usize, buffer_length: usize, line: u64, held: usize| {
        // Sound: no length is above its buffer's.
        let given = unsafe {
            bulmegart_book_feed(
                piece.as_ptr(),
                length,
                buffer.as_mut_ptr(),
                buffer_length,
                line,
                held,
                tally.as_mut_ptr(),
                tally.len(),
                room.as_mut_ptr(),
                room.len(),
            )
        };
        assert!(given.number == 0 || (given == RawBookAnswer { number: given.number, line, held, written: 0 } && tally == [9; NUMBERS]));
        given.number
    };
    assert_eq!(call(4, HELD + 1, 1, 0), 4);
    assert_eq!(call(4, HELD - 1, 1, 0), 4);
    assert_eq!(call(4, HELD, 1, HELD + 1), 4);
    assert_eq!(call(4, HELD, u64::MAX - 3, 0), 4);
    assert_eq!(call(5, HELD, 1, 0), 12);
    assert_eq!(call(4, HELD, u64::MAX - 4, 0), 0);
    // Sound: as above.
    let given = unsafe { bulmegart_book_finish(buffer.as_ptr(), HELD, 1, 1, tally.as_mut_ptr(), tally.len(), room.as_mut_ptr(), ANSWER - 1) };
    assert_eq!(given.number, 12);
}
