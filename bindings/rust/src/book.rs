//! The book of test pieces: lines of lower-case hexadecimal, a frame a line, answered a line each.
use std::mem::{offset_of, size_of};

/// The bytes of a line that are held: one more than a frame's line may have.
pub const HELD: usize = 8_469;
/// The bytes of room that the answer to a line takes at most.
pub const ANSWER: usize = 70;
/// The numbers that a line can be answered by: 0 for `ok`, and 1 to 22.
pub const NUMBERS: usize = 23;

/// The bytes of a book that are handed over at once.
const PIECE: usize = 4_096;

/// What a piece of a book, or its end, gave.
#[repr(C)]
#[derive(Clone, Copy, Debug, PartialEq, Eq)]
pub struct RawBookAnswer {
    /// 0, 4 (a buffer that is not [`HELD`] bytes long, a line that no call leaves) or 12 (less room than [`ANSWER`] bytes for each byte of the piece).
    pub number: u32,
    /// The number of the line that is being read, from 1.
    pub line: u64,
    /// How many of its bytes the buffer holds.
    pub held: usize,
    /// How many bytes of the room were written.
    pub written: usize,
}

const _: () = assert!(size_of::<RawBookAnswer>() == 32);
const _: () = assert!(offset_of!(RawBookAnswer, line) == 8 && offset_of!(RawBookAnswer, held) == 16 && offset_of!(RawBookAnswer, written) == 24);

extern "C" {
    /// See [`Book::feed`]. Sound if each pointer is to as many elements as its length says, and the buffers that are written are apart.
    pub fn bulmegart_book_feed(
        piece: *const u8,
        length: usize,
        buffer: *mut u8,
        buffer_length: usize,
        line: u64,
        held: usize,
        tally: *mut u64,
        tally_length: usize,
        room: *mut u8,
        room_length: usize,
    ) -> RawBookAnswer;
    /// See [`Book::finish`]. Sound as [`bulmegart_book_feed`] is.
    pub fn bulmegart_book_finish(
        buffer: *const u8,
        buffer_length: usize,
        line: u64,
        held: usize,
        tally: *mut u64,
        tally_length: usize,
        room: *mut u8,
        room_length: usize,
    ) -> RawBookAnswer;
}

/// A book that is being read. It comes in pieces of any length; no way of cutting it matters.
///
/// ```
/// use bulmegart::Book;
///
/// let frame = format!("020100081a000002{}fe80\n", "9a".repeat(130));
/// let (mut book, mut answers) = (Book::new(), Vec::new());
/// for piece in frame.as_bytes().chunks(7) {
///     book.feed(piece, &mut answers);
/// }
/// let tally = book.finish(&mut answers);
/// assert_eq!(answers, b"1 ok 1 0\n");
/// assert_eq!(tally[0], 1);
/// ```
#[derive(Clone, Debug)]
pub struct Book {
    buffer: Vec<u8>,
    line: u64,
    held: usize,
    tally: [u64; NUMBERS],
    room: Vec<u8>,
}

impl Default for Book {
    fn default() -> Book {
        Book::new()
    }
}

impl Book {
    /// A book of which nothing is read.
    pub fn new() -> Book {
        Book { buffer: vec![0; HELD], line: 1, held: 0, tally: [0; NUMBERS], room: vec![0; ANSWER * PIECE] }
    }

    /// A piece of the book, of any length. The answers to the lines that end in it, `N ok GREATEST PAST` or `N no NUMBER`, are put behind `answers`.
    pub fn feed(&mut self, piece: &[u8], answers: &mut Vec<u8>) {
        for part in piece.chunks(PIECE) {
            // Sound: each pointer is to as many elements as its length says, and the buffers are apart.
            let given = unsafe {
                bulmegart_book_feed(
                    part.as_ptr(),
                    part.len(),
                    self.buffer.as_mut_ptr(),
                    self.buffer.len(),
                    self.line,
                    self.held,
                    self.tally.as_mut_ptr(),
                    self.tally.len(),
                    self.room.as_mut_ptr(),
                    self.room.len(),
                )
            };
            self.take(given, answers);
        }
    }

    /// The end of the book: bytes behind its last line feed are a line that was not finished, `no 20` or `no 22`. Gives how often each number was
    /// given; 0 is `ok`.
    pub fn finish(mut self, answers: &mut Vec<u8>) -> [u64; NUMBERS] {
        // Sound: as above.
        let given = unsafe {
            bulmegart_book_finish(
                self.buffer.as_ptr(),
                self.buffer.len(),
                self.line,
                self.held,
                self.tally.as_mut_ptr(),
                self.tally.len(),
                self.room.as_mut_ptr(),
                self.room.len(),
            )
        };
        self.take(given, answers);
        self.tally
    }

    /// The number of the line that is being read, from 1.
    pub fn line(&self) -> u64 {
        self.line
    }

    fn take(&mut self, given: RawBookAnswer, answers: &mut Vec<u8>) {
        assert_eq!(given.number, 0, "a book of 2^64 lines");
        self.line = given.line;
        self.held = given.held;
        answers.extend_from_slice(&self.room[..given.written]);
    }
}
