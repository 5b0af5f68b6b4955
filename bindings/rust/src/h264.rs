//! One luma 4x4 block of 16 coefficients of H.264 (request (xiii)), by the same engine.
//!
//! Levels stand by list place, 0 to 15, in the order of the scan; to undo the scan is the caller's. Places past 16 are never looked at or changed. Entries of
//! a list are those of HEVC's, with the numbers of these [`CONTEXTS`]: significance 0 to 14, last 15 to 29, magnitude 30 to 39.
//!
//! ```
//! use bulmegart::h264::{residual_block, CONTEXTS};
//!
//! let payload = [0x36, 0xf0];
//! let (mut contexts, mut levels) = ([64; CONTEXTS], [0; 16]);
//! let (greatest, state) = residual_block(&payload, bulmegart::start(&payload)?, &mut contexts, &mut levels)?;
//! assert_eq!((levels[0], greatest, state.position), (1, 1, 12));
//! # Ok::<(), bulmegart::Refusal>(())
//! ```
use crate::raw::{RawState, RawWriteAnswer};
use crate::{accepted, seen, Refusal, State};
use std::mem::{offset_of, size_of};

/// How many packed contexts there are, and how many pairs they start from.
pub const CONTEXTS: usize = 40;
/// The places of a block.
pub const PLACES: usize = 16;
/// The bytes of the longest list: sixteen levels of −32768. A room of so many is never too small.
pub const LONGEST_LIST: usize = 1_468;

/// A block from a payload, as the archive answers it.
#[repr(C)]
#[derive(Clone, Copy, Debug, PartialEq, Eq)]
pub struct RawH264BlockAnswer {
    /// Document 01's number.
    pub number: u32,
    /// Greatest magnitude.
    pub greatest: u32,
    /// Behind the block.
    pub state: RawState,
}

/// A block from a list, as the archive answers it.
#[repr(C)]
#[derive(Clone, Copy, Debug, PartialEq, Eq)]
pub struct RawH264ListAnswer {
    /// Document 01's number.
    pub number: u32,
    /// Greatest magnitude.
    pub greatest: u32,
}

const _: () = assert!(size_of::<RawH264BlockAnswer>() == 32 && offset_of!(RawH264BlockAnswer, greatest) == 4 && offset_of!(RawH264BlockAnswer, state) == 8);
const _: () = assert!(size_of::<RawH264ListAnswer>() == 8 && offset_of!(RawH264ListAnswer, greatest) == 4);

extern "C" {
    /// See [`init_pairs`].
    pub fn bulmegart_h264_init_pairs(contexts: *mut u8, pairs: *const i32, numbers: usize, qp: u8) -> u32;
    /// See [`residual_block`].
    pub fn bulmegart_h264_residual_block(
        payload: *const u8,
        length: usize,
        state: RawState,
        contexts: *mut u8,
        levels: *mut i32,
        levels_length: usize,
    ) -> RawH264BlockAnswer;
    /// See [`read_bins`].
    pub fn bulmegart_h264_read_bins(list: *const u8, length: usize, levels: *mut i32, levels_length: usize) -> RawH264ListAnswer;
    /// See [`write_bins`].
    pub fn bulmegart_h264_write_bins(levels: *const i32, levels_length: usize, room: *mut u8, room_length: usize) -> RawWriteAnswer;
    /// See [`pack_bins`].
    pub fn bulmegart_h264_pack_bins(contexts: *const u8, list: *const u8, length: usize, room: *mut u8, room_length: usize) -> RawWriteAnswer;
}

/// Contexts from 40 pairs m, n, one after the other, m before n; a QP above 51 counts as 51. Refusal: 4 unless there are 80 numbers, each −128 to
/// 127, and the contexts stand as they were.
pub fn init_pairs(contexts: &mut [u8; CONTEXTS], pairs: &[i32], qp: u8) -> Result<(), Refusal> {
    // Sound, as each call below: every pointer comes from a borrow of the length handed on, and what is written is borrowed alone.
    let number = unsafe { bulmegart_h264_init_pairs(contexts.as_mut_ptr(), pairs.as_ptr(), pairs.len(), qp) };
    accepted(number, ())
}

/// One block from a payload: its greatest magnitude, and the state behind it.
///
/// Refusals: 1, 2, 4 (under 16 places), 3, 6 with the levels untouched, then 8 with 16 levels zero. Contexts move on acceptance alone.
pub fn residual_block(payload: &[u8], state: State, contexts: &mut [u8; CONTEXTS], levels: &mut [i32]) -> Result<(u32, State), Refusal> {
    let r = unsafe {
        bulmegart_h264_residual_block(payload.as_ptr(), payload.len(), state.raw(), contexts.as_mut_ptr(), levels.as_mut_ptr(), levels.len())
    };
    accepted(r.number, (r.greatest, seen(r.state)))
}

/// One block from a bin list, which it must end: its greatest magnitude.
///
/// Refusals: 4 (under 16 places) with the levels untouched, then 8 or 13 in the order of reading with 16 levels zero.
pub fn read_bins(list: &[u8], levels: &mut [i32]) -> Result<u32, Refusal> {
    let r = unsafe { bulmegart_h264_read_bins(list.as_ptr(), list.len(), levels.as_mut_ptr(), levels.len()) };
    accepted(r.number, r.greatest)
}

/// The first 16 places as a bin list at the front of the room: the one list that [`read_bins`] reads as exactly these levels. Answers its length; the
/// room beyond it is untouched.
///
/// Refusals, with the room untouched: 4 (under 16 places), 9, 8, 12. One of 9, 8 is given exactly when no list of any length reads as those, 12
/// exactly when one does and it does not fit the room.
pub fn write_bins(levels: &[i32], room: &mut [u8]) -> Result<usize, Refusal> {
    let r = unsafe { bulmegart_h264_write_bins(levels.as_ptr(), levels.len(), room.as_mut_ptr(), room.len()) };
    accepted(r.number, r.length)
}

/// A list as a payload at the front of the room; [`residual_block`] with the same contexts reads it back. Answers its length; the room beyond it is
/// untouched. [`payload_bound`](crate::payload_bound) of the list's length is never too small a room.
///
/// ```
/// use bulmegart::h264::{pack_bins, CONTEXTS};
///
/// let mut room = [0; 8];
/// assert_eq!(pack_bins(&[64; CONTEXTS], &[1, 0, 31, 0, 62, 0, 4, 1], &mut room), Ok(2));
/// assert_eq!(room[..2], [0x36, 0xf0]);
/// ```
///
/// Refusals, with the room untouched: 3 (contexts), 13 if [`read_bins`] refuses the list by 8 or 13, 12 exactly if the payload is longer than the room.
pub fn pack_bins(contexts: &[u8; CONTEXTS], list: &[u8], room: &mut [u8]) -> Result<usize, Refusal> {
    let r = unsafe { bulmegart_h264_pack_bins(contexts.as_ptr(), list.as_ptr(), list.len(), room.as_mut_ptr(), room.len()) };
    accepted(r.number, r.length)
}
