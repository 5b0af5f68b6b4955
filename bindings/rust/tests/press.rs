//! Drawings through the press, and their frames through the book.
use bulmegart::{press, Book, Refusal, CONTEXTS};

fn answered(frames: &[Vec<u8>]) -> String {
    let (mut book, mut answers) = (Book::new(), Vec::new());
    for frame in frames {
        let line: String = frame.iter().map(|b| format!("{b:02x}")).collect();
        book.feed(format!("{line}\n").as_bytes(), &mut answers);
    }
    book.finish(&mut answers);
    String::from_utf8(answers).unwrap()
}

/// Hairlines along a row, a column and a diagonal, at each size and scan, luma and chroma, at several depths.
#[test]
fn hairlines() {
    let (mut frames, mut wanted) = (Vec::new(), String::new());
    for log2 in 2..6 {
        let n = 1_usize << log2;
        for (luma, scan, depth) in [(1, 0, 8), (0, 1, 8), (1, 2, 12), (0, 0, 16)] {
            for line in 0..3 {
                let mut levels = vec![0; n * n];
                for i in 0..n {
                    let at = [n + i, i * n + 1, i * n + i][line];
                    levels[at] = if i % 2 == 0 { i as i32 + 1 } else { -(i as i32) - 1 };
                }
                let frame = press(&[log2, luma, scan, depth, 30, 0], &[154; CONTEXTS], &levels).unwrap();
                frames.push(frame);
                wanted += &format!("{} ok {n} 0\n", frames.len());
            }
        }
    }
    assert_eq!(answered(&frames), wanted);
}

#[test]
fn levels_at_the_ends_of_the_range_and_beyond() {
    let mut levels = [0; 16];
    for (level, given) in [(32_767, Ok(())), (-32_768, Ok(())), (32_768, Err(Refusal::LevelOutOfRange)), (-32_769, Err(Refusal::LevelOutOfRange)), (0, Err(Refusal::AllZero))] {
        levels[3] = level;
        let pressed = press(&[2, 1, 0, 8, 26, 0], &[154; CONTEXTS], &levels);
        assert_eq!(pressed.clone().map(|_| ()), given);
        if let Ok(frame) = pressed {
            assert_eq!(answered(&[frame]), format!("1 ok {} 0\n", level.unsigned_abs()));
        }
    }
}

#[test]
fn hidden_signs_met_and_missed() {
    // last and first level are 5 apart in the scan: the first one's sign is hidden in the parity of the sum
    let drawing = |sum: i32| {
        let mut levels = [0; 16];
        (levels[0], levels[15]) = (1, sum - 1);
        press(&[2, 1, 0, 8, 26, 1], &[154; CONTEXTS], &levels).map(|frame| answered(&[frame]))
    };
    assert_eq!(drawing(4), Ok("1 ok 3 0\n".into()));
    assert_eq!(drawing(5), Err(Refusal::HiddenSign));
}

#[test]
fn what_is_refused_by_4() {
    let levels = [1; 16];
    for head in [[1, 1, 0, 8, 26, 0], [6, 1, 0, 8, 26, 0], [2, 2, 0, 8, 26, 0], [2, 1, 3, 8, 26, 0], [2, 1, 0, 7, 26, 0], [2, 1, 0, 8, 26, 2]] {
        assert_eq!(press(&head, &[154; CONTEXTS], &levels), Err(Refusal::BadParameter), "{head:?}");
    }
    assert_eq!(press(&[2, 1, 0, 8, 26, 0], &[154; CONTEXTS - 1], &levels), Err(Refusal::BadParameter));
    assert_eq!(press(&[2, 1, 0, 8, 26, 0], &[154; CONTEXTS], &levels[..15]), Err(Refusal::BadParameter));
}

/// The largest levels throughout, at the initial value where they take the most bytes: what does not fit a line is 22.
#[test]
fn a_full_block() {
    let levels = vec![-32_768; 1024];
    match press(&[5, 1, 0, 8, 26, 0], &[154; CONTEXTS], &levels) {
        Ok(frame) => assert_eq!(answered(&[frame]), "1 ok 32768 0\n"),
        Err(refusal) => assert_eq!(refusal, Refusal::LongLine),
    }
}
