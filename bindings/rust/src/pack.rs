//! Bin lists as payloads.
use crate::raw::{bulmegart_pack_bins, bulmegart_pack_scale};
use crate::{accepted, Params, Record, Refusal, CONTEXTS, STATISTICS};
use std::mem::{offset_of, size_of};

/// A tray's payload, as the archive answers it.
#[repr(C)]
#[derive(Clone, Copy, Debug, PartialEq, Eq)]
pub struct RawPackTrayAnswer {
    /// Document 01's number.
    pub number: u32,
    /// How many lists were read.
    pub done: usize,
    /// The payload's length; 0 after a refusal.
    pub length: usize,
}

const _: () = assert!(size_of::<RawPackTrayAnswer>() == 24 && offset_of!(RawPackTrayAnswer, number) == 0);
const _: () = assert!(offset_of!(RawPackTrayAnswer, done) == 8 && offset_of!(RawPackTrayAnswer, length) == 16);

extern "C" {
    /// See [`pack_tray`]. Lengths count records and bytes.
    pub fn bulmegart_pack_tray(
        contexts: *const u8,
        statistics: *const u8,
        records: *const Record,
        records_length: usize,
        lists: *const u8,
        length: usize,
        room: *mut u8,
        room_length: usize,
    ) -> RawPackTrayAnswer;
}

/// The bytes of the longest payload that a list of a block of side 2^log2 is packed to; a room of so many is never too small. 0 for a size that
/// no block has.
pub const fn longest_payload(log2: u32) -> usize {
    match log2 {
        2 => 96,
        3 => 366,
        4 => 1_434,
        5 => 5_698,
        _ => 0,
    }
}

/// A block's bin list as a payload at the front of the room, by H.265's arithmetic writer. Answers its length; the room beyond it is untouched.
///
/// [`start`](crate::start) on the payload is accepted; [`residual_coding`](crate::residual_coding) with the same contexts and statistics then gives what
/// [`read_bins`](crate::read_bins) gives of the list, with no bit past the end; [`decode_terminate`](crate::decode_terminate) then is 1, and the length is the
/// position after it in whole bytes, rounded up. Zero bits fill the last byte.
///
/// ```
/// use bulmegart::{longest_payload, pack_bins, Params, CONTEXTS};
///
/// // level 1 at (0, 0)
/// let list = [0x00, 0, 0x24, 0, 0xaa, 0, 0x04, 1];
/// let mut room = vec![0; longest_payload(2)];
/// let length = pack_bins(&[64; CONTEXTS], &[0; 4], Params::plain(2), &list, &mut room)?;
/// assert_eq!(room[..length], [0xef, 0xf8]);
/// # Ok::<(), bulmegart::Refusal>(())
/// ```
///
/// Refusals, with the room untouched: 4 (parameters), 3 (contexts, statistics), 13 if [`read_bins`](crate::read_bins) refuses the list by 8 or 13,
/// 12 exactly if the payload is longer than the room.
pub fn pack_bins(
    contexts: &[u8; CONTEXTS],
    statistics: &[u8; STATISTICS],
    params: Params,
    list: &[u8],
    room: &mut [u8],
) -> Result<usize, Refusal> {
    let r = unsafe {
        bulmegart_pack_bins(contexts.as_ptr(), statistics.as_ptr(), params.raw(), list.as_ptr(), list.len(), room.as_mut_ptr(), room.len())
    };
    accepted(r.number, r.length)
}

/// A scale's bin list as a payload at the front of the room; [`read_scale`](crate::read_scale) reads it back. Answers its length; the room beyond
/// it is untouched.
///
/// Refusals, with the room untouched: 4 (component above 1), 3 (contexts), 13, 12.
pub fn pack_scale(contexts: &[u8; CONTEXTS], component: u32, list: &[u8], room: &mut [u8]) -> Result<usize, Refusal> {
    let r = unsafe { bulmegart_pack_scale(contexts.as_ptr(), component, list.as_ptr(), list.len(), room.as_mut_ptr(), room.len()) };
    accepted(r.number, r.length)
}

/// Bytes that the payload of a list, or of a tray's lists, of so many bytes never exceeds: nine bits, and at most seven for each entry.
pub const fn payload_bound(length: usize) -> usize {
    (length / 2 * 7 + 16) / 8
}

/// What became of a tray that was to be packed.
#[derive(Clone, Copy, Debug, PartialEq, Eq)]
pub struct PackedTray {
    /// How many lists were read. Where the answer is 13 the one behind them is refused, or bytes are left behind all of them; 0 after 4 and 3.
    pub done: usize,
    /// The payload's length.
    pub length: Result<usize, Refusal>,
}

/// The lists of a tray's blocks, one after the other with nothing between them, as one payload at the front of the room: contexts and statistics are
/// carried on from list to list, and the flush is one. Each list ends where its block does. The room beyond the payload is untouched.
///
/// [`start`](crate::start) on the payload is accepted; [`read_tray`](crate::read_tray) with the same records, contexts and statistics then does every block
/// and gives what the lists hold; [`decode_terminate`](crate::decode_terminate) then is 1.
///
/// ```
/// use bulmegart::{pack_tray, payload_bound, Params, Record, CONTEXTS};
///
/// // level 1, then level -1, at (0, 0)
/// let lists = [0x00, 0, 0x24, 0, 0xaa, 0, 0x04, 1, 0x00, 0, 0x24, 0, 0xaa, 0, 0x05, 1];
/// let records = [Record::from(Params::plain(2)); 2];
/// let mut room = vec![0; payload_bound(lists.len())];
/// let tray = pack_tray(&[64; CONTEXTS], &[0; 4], &records, &lists, &mut room);
/// assert_eq!((tray.done, tray.length), (2, Ok(3)));
/// assert_eq!(room[..3], [0xe2, 0xdf, 0x80]);
/// ```
///
/// Refusals, with the room untouched: 4 (a flag above 1, more than [`TRAY_MOST`](crate::TRAY_MOST) records, one out of its limits), 3 (contexts,
/// statistics), 13, 12 exactly if the payload is longer than the room.
pub fn pack_tray(contexts: &[u8; CONTEXTS], statistics: &[u8; STATISTICS], records: &[Record], lists: &[u8], room: &mut [u8]) -> PackedTray {
    // Sound: every pointer comes from a borrow of the length handed on, the room is borrowed alone, and a record is as tray.rs asserts.
    let r = unsafe {
        bulmegart_pack_tray(
            contexts.as_ptr(),
            statistics.as_ptr(),
            records.as_ptr(),
            records.len(),
            lists.as_ptr(),
            lists.len(),
            room.as_mut_ptr(),
            room.len(),
        )
    };
    PackedTray { done: r.done, length: accepted(r.number, r.length) }
}
