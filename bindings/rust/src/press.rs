//! The press: a frame of the book from a drawing.
use crate::{accepted, Refusal, CONTEXTS};
use std::mem::{offset_of, size_of};

/// The bytes of the longest frame: 8, [`CONTEXTS`] initial values, a payload of 4,096.
pub const LONGEST_FRAME: usize = 8 + CONTEXTS + 4_096;

/// What a drawing gave.
#[repr(C)]
#[derive(Clone, Copy, Debug, PartialEq, Eq)]
pub struct RawPressAnswer {
    /// 0 for a frame; 4, 9, 8, 11 or 22.
    pub number: u32,
    /// The frame's bytes in the room; 0 after a refusal.
    pub length: usize,
}

const _: () = assert!(size_of::<RawPressAnswer>() == 16 && offset_of!(RawPressAnswer, number) == 0 && offset_of!(RawPressAnswer, length) == 8);

extern "C" {
    /// See [`press`]. Sound if each pointer is to as many elements as its length says, and the room is apart from the others.
    pub fn bulmegart_press(
        head: *const u8,
        head_length: usize,
        values: *const u8,
        values_length: usize,
        levels: *const i32,
        levels_length: usize,
        room: *mut u8,
        room_length: usize,
    ) -> RawPressAnswer;
}

/// A drawing as a frame: `head` is log2 size, luma (1) or chroma (0), scan, bit depth, QP and hiding (0 or 1); then the initial values and n·n levels,
/// row by row. The book answers the frame by `ok`, the greatest magnitude of the levels, and 0.
///
/// Refusals, where no picture can hold the drawing: 4 (parameters out of their limits, not [`CONTEXTS`] values, fewer than n·n levels), 9 (all
/// levels zero), 8 (a level out of range), 11 (a hidden sign disagrees), 22 (a payload over 4,096 bytes).
///
/// ```
/// use bulmegart::{press, Book, Refusal, CONTEXTS};
///
/// let mut levels = [0; 16];
/// levels[5] = -7;
/// let frame = press(&[2, 1, 0, 8, 26, 0], &[154; CONTEXTS], &levels)?;
/// let line: String = frame.iter().map(|b| format!("{b:02x}")).collect();
/// let (mut book, mut answers) = (Book::new(), Vec::new());
/// book.feed(format!("{line}\n").as_bytes(), &mut answers);
/// assert_eq!(answers, b"1 ok 7 0\n");
/// assert_eq!(press(&[2, 1, 0, 8, 26, 0], &[154; CONTEXTS], &[0; 16]), Err(Refusal::AllZero));
/// # Ok::<(), Refusal>(())
/// ```
pub fn press(head: &[u8; 6], values: &[u8], levels: &[i32]) -> Result<Vec<u8>, Refusal> {
    let mut room = vec![0; LONGEST_FRAME];
    // Sound: each pointer is to as many elements as its length says, and the room is apart from the others.
    let given = unsafe {
        bulmegart_press(
            head.as_ptr(),
            head.len(),
            values.as_ptr(),
            values.len(),
            levels.as_ptr(),
            levels.len(),
            room.as_mut_ptr(),
            room.len(),
        )
    };
    room.truncate(given.length);
    accepted(given.number, room)
}
