//! The arithmetic engine of H.265 (CABAC), the two readers of a residual block, the writer of bins, and the scale of cross-component
//! prediction, proved in Rattle, as safe functions.
//!
//! Each function takes any slices, any state and any numbers, and ends. A refusal is `Err` with document 01's number, a [`Refusal`]; contexts and
//! statistics are then those handed in, and the caller's state stands. "Document 01" and "request (i)" and so on are the customer's papers: what they
//! ask for is said here.
//!
//! A payload is a slice's data with its emulation prevention bytes taken out. The initial values are H.265's (9.3.2) for the slice's initType, in the order of
//! [`contexts`]; the QP is SliceQpY, and 0 for one below 0. A list of bins has two bytes for each entry, low byte first:
//! 2·context number + bin, [`BYPASS_ENTRY`] + bin, or [`ALIGNMENT_ENTRY`] where the range is aligned. Lengths count bytes.
//!
//! A [`Reader`] carries payload, state, contexts and statistics from one call to the next:
//!
//! ```
//! use bulmegart::{Params, Reader, CONTEXTS};
//!
//! let mut reader = Reader::start(&[0xfe, 0x80], &[154; CONTEXTS], 26)?;
//! let mut levels = [0; 16];
//! let found = reader.residual_coding(Params::plain(2), &mut levels)?;
//! assert_eq!((levels[0], found.greatest, reader.state.position, reader.state.past), (-1, 1, 13, 0));
//! # Ok::<(), bulmegart::Refusal>(())
//! ```
//!
//! The same by functions that keep nothing:
//!
//! ```
//! use bulmegart::{init_contexts, residual_coding, start, Params, CONTEXTS, STATISTICS};
//!
//! let payload = [0xfe, 0x80];
//! let (mut contexts, mut statistics) = ([0; CONTEXTS], [0; STATISTICS]);
//! init_contexts(&mut contexts, &mut statistics, &[154; CONTEXTS], 26)?;
//! let mut levels = [0; 16];
//! let (found, state) = residual_coding(&payload, start(&payload)?, &mut contexts, &mut statistics, Params::plain(2), &mut levels)?;
//! assert_eq!((levels[0], found.greatest, state.position), (-1, 1, 13));
//! # Ok::<(), bulmegart::Refusal>(())
//! ```
//!
//! The numbers as C has them are in [`raw`]; the names and signatures of the Rust that the bench is built around in [`swap`].
#![deny(missing_docs)]

pub mod book;
pub mod figures;
mod pack;
pub mod plain;
pub mod press;
pub mod h264;
pub mod raw;
mod reached;
mod reader;
mod refusal;
pub mod summary;
pub mod swap;
mod tray;

pub use book::Book;
pub use pack::{bulmegart_pack_tray, longest_payload, pack_bins, pack_scale, pack_tray, payload_bound, PackedTray, RawPackTrayAnswer};
pub use press::press;
use raw::*;
pub use reached::{bulmegart_reached, reached, RawReachedAnswer};
pub use reader::Reader;
pub use refusal::Refusal;
pub use tray::*;

/// The version of the archive that this crate calls; [`version`] asks the archive.
pub const VERSION: u32 = 0x00_03_00;
/// How many packed contexts there are; [`contexts`] has their order. Each is a byte, 0 to 127: bits 0 to 5 its state, bit 6 the favoured bin.
pub const CONTEXTS: usize = contexts::SCALE_SIGN.end;
/// How many statistics of persistent Rice there are, 0 to 84 each: chroma, chroma with skip or bypass, luma, luma with skip or bypass.
pub const STATISTICS: usize = 4;
/// The entry of a bypass bin that is 0; one more is the entry of one that is 1.
pub const BYPASS_ENTRY: u16 = 2 * CONTEXTS as u16;
/// The entry that stands where the range is aligned.
pub const ALIGNMENT_ENTRY: u16 = BYPASS_ENTRY + 2;
/// The bytes of the longest list of a scale.
pub const LONGEST_SCALE_LIST: usize = 10;

/// The bytes of the longest list of a block of side 2^log2; a room of so many is never too small. 0 for a size that no block has.
pub const fn longest_list(log2: u32) -> usize {
    match log2 {
        2 => 1_124,
        3 => 4_464,
        4 => 17_796,
        5 => 71_088,
        _ => 0,
    }
}

/// Which contexts, and so which initial values, each syntax element has.
pub mod contexts {
    use std::ops::Range;

    /// `last_sig_coeff_x_prefix`: 15 luma, 3 chroma.
    pub const LAST_X_PREFIX: Range<usize> = 0..18;
    /// `last_sig_coeff_y_prefix`: 15 luma, 3 chroma.
    pub const LAST_Y_PREFIX: Range<usize> = 18..36;
    /// `sig_coeff_flag`: 27 luma, 15 chroma; then luma and chroma of the skip context.
    pub const SIGNIFICANCE: Range<usize> = 36..80;
    /// `coded_sub_block_flag`: 2 luma, 2 chroma.
    pub const CODED_SUB_BLOCK: Range<usize> = 80..84;
    /// `coeff_abs_level_greater1_flag`: 16 luma, 8 chroma.
    pub const GREATER1: Range<usize> = 84..108;
    /// `coeff_abs_level_greater2_flag`: 4 luma, 2 chroma.
    pub const GREATER2: Range<usize> = 108..114;
    /// `transform_skip_flag`: luma, chroma.
    pub const TRANSFORM_SKIP: Range<usize> = 114..116;
    /// `explicit_rdpcm_flag`: luma, chroma.
    pub const RDPCM_FLAG: Range<usize> = 116..118;
    /// `explicit_rdpcm_dir_flag`: luma, chroma.
    pub const RDPCM_DIRECTION: Range<usize> = 118..120;
    /// `log2_res_scale_abs_plus1`: 4·component + bin number.
    pub const SCALE_VALUE: Range<usize> = 120..128;
    /// `res_scale_sign_flag`: component.
    pub const SCALE_SIGN: Range<usize> = 128..130;
}

/// The engine's state between calls.
#[derive(Clone, Copy, Debug, PartialEq, Eq)]
pub struct State {
    /// 256 to 510, unless ended.
    pub range: u32,
    /// Below the range, unless ended.
    pub offset: u32,
    /// Bits drawn: the place of the next bit in the payload.
    pub position: usize,
    /// Terminate answered 1.
    pub ended: bool,
    /// Bits past the end supplied since the first start, at most 65,535; 0 if none was.
    pub past: u32,
}

/// What the slice and the coding unit have settled before the block, with H.265's names.
#[derive(Clone, Copy, Debug, PartialEq, Eq)]
pub struct Params {
    /// 2 to 5: the block is n by n, n = 2^log2 (`log2TrafoSize`).
    pub log2: u32,
    /// 0 diagonal, 1 rows, 2 columns (`scanIdx`).
    pub scan: u32,
    /// Bit depth of the component, 8 to 16.
    pub depth: u32,
    /// Luma; else chroma.
    pub luma: bool,
    /// Sign hiding enabled (`sign_data_hiding_enabled_flag`).
    pub hiding: bool,
    /// Transform skip may be coded (`transform_skip_enabled_flag`, and log2 is at most `Log2MaxTransformSkipSize`).
    pub skip_allowed: bool,
    /// Transquant bypass (`cu_transquant_bypass_flag`).
    pub lossless: bool,
    /// Persistent Rice (`persistent_rice_adaptation_enabled_flag`).
    pub persistent: bool,
    /// Skip context enabled (`transform_skip_context_enabled_flag`).
    pub skip_context: bool,
    /// Explicit RDPCM enabled (`explicit_rdpcm_enabled_flag`).
    pub explicit_rdpcm: bool,
    /// Implicit RDPCM enabled (`implicit_rdpcm_enabled_flag`), in an intra block of mode 10 or 26.
    pub implicit_rdpcm: bool,
    /// Inter block (`CuPredMode` is `MODE_INTER`).
    pub inter: bool,
    /// Bypass alignment enabled (`cabac_bypass_alignment_enabled_flag`).
    pub aligning: bool,
    /// Extended precision (`extended_precision_processing_flag`).
    pub extended: bool,
}

impl Params {
    /// A luma block of side 2^log2 in diagonal scan at depth 8, all options off.
    pub fn plain(log2: u32) -> Params {
        Params {
            log2,
            scan: 0,
            depth: 8,
            luma: true,
            hiding: false,
            skip_allowed: false,
            lossless: false,
            persistent: false,
            skip_context: false,
            explicit_rdpcm: false,
            implicit_rdpcm: false,
            inter: false,
            aligning: false,
            extended: false,
        }
    }

    /// As the archive takes them.
    #[inline]
    pub fn raw(&self) -> RawParams {
        RawParams {
            log2: self.log2,
            scan: self.scan,
            depth: self.depth,
            luma: self.luma as u8,
            hiding: self.hiding as u8,
            skip_allowed: self.skip_allowed as u8,
            lossless: self.lossless as u8,
            persistent: self.persistent as u8,
            skip_context: self.skip_context as u8,
            explicit_rdpcm: self.explicit_rdpcm as u8,
            implicit_rdpcm: self.implicit_rdpcm as u8,
            inter: self.inter as u8,
            aligning: self.aligning as u8,
            extended: self.extended as u8,
        }
    }
}

/// Explicit RDPCM: document 01's none, 0, 1, and 0, 1, 2 in C.
#[derive(Clone, Copy, Debug, PartialEq, Eq)]
pub enum Rdpcm {
    /// Not used; 0 in C.
    None,
    /// Document 01's direction 0; 1 in C.
    Horizontal,
    /// Document 01's direction 1; 2 in C.
    Vertical,
}

/// What is found beside the levels.
#[derive(Clone, Copy, Debug, PartialEq, Eq)]
pub struct Found {
    /// Transform skip.
    pub skip: bool,
    /// Explicit RDPCM.
    pub rdpcm: Rdpcm,
    /// Column extent: the greatest column that holds a non-zero level; every column beyond it is zero.
    pub column: u32,
    /// Row extent: the greatest row that holds a non-zero level; every row beyond it is zero.
    pub row: u32,
    /// Greatest magnitude.
    pub greatest: u32,
}

impl State {
    /// As the archive takes it.
    #[inline]
    pub fn raw(&self) -> RawState {
        RawState {
            range: self.range,
            offset: self.offset,
            position: self.position,
            ended: self.ended as u8,
            past: self.past,
        }
    }
}

#[inline]
fn seen(s: RawState) -> State {
    State { range: s.range, offset: s.offset, position: s.position, ended: s.ended != 0, past: s.past }
}

#[inline]
fn found(f: RawFound) -> Found {
    let rdpcm = match f.rdpcm {
        0 => Rdpcm::None,
        1 => Rdpcm::Horizontal,
        _ => Rdpcm::Vertical,
    };
    Found { skip: f.skip != 0, rdpcm, column: f.column, row: f.row, greatest: f.greatest }
}

#[inline]
fn accepted<T>(number: u32, value: T) -> Result<T, Refusal> {
    if number == 0 {
        Ok(value)
    } else {
        Err(Refusal::of_number(number).expect("the archive answers by document 01's numbers"))
    }
}

#[inline]
fn bins(r: RawBinsAnswer) -> Result<(u32, State), Refusal> {
    accepted(r.number, (r.value, seen(r.state)))
}

#[inline]
fn bin(r: RawBinsAnswer) -> Result<(bool, State), Refusal> {
    accepted(r.number, (r.value != 0, seen(r.state)))
}

/// The archive's version: two hexadecimal digits for each of minor and patch, major above them. [`VERSION`] is this crate's; where they differ, crate and
/// archive were not made together, and no other answer means anything.
pub fn version() -> u32 {
    // Sound: no memory is lent.
    unsafe { bulmegart_version() }
}

/// The packed context of an initial value at a QP; a QP above 51 counts as 51.
pub fn init(value: u8, qp: u8) -> u8 {
    // Sound: no memory is lent.
    unsafe { bulmegart_init(value, qp) }
}

/// Contexts from as many initial values; the statistics become 0. Refusal: 4 unless there are [`CONTEXTS`] values, and both stand as they were.
pub fn init_contexts(contexts: &mut [u8; CONTEXTS], statistics: &mut [u8; STATISTICS], values: &[u8], qp: u8) -> Result<(), Refusal> {
    // Sound, as each call below: every pointer comes from a borrow of the length handed on, and what is written is borrowed alone.
    let number = unsafe { bulmegart_init_contexts(contexts.as_mut_ptr(), statistics.as_mut_ptr(), values.as_ptr(), values.len(), qp) };
    accepted(number, ())
}

/// Start: range 510, offset the first 9 bits. Refusals: 1, 2, 5.
pub fn start(payload: &[u8]) -> Result<State, Refusal> {
    let r = unsafe { bulmegart_start(payload.as_ptr(), payload.len()) };
    accepted(r.number, seen(r.state))
}

/// One decision on a packed context, which it changes. Refusals: 1, 2, 3, 6; the context then stands.
pub fn decode_bin(payload: &[u8], state: State, context: &mut u8) -> Result<(bool, State), Refusal> {
    let r = unsafe { bulmegart_decode_bin(payload.as_ptr(), payload.len(), state.raw(), *context) };
    *context = r.context;
    accepted(r.number, (r.bin != 0, seen(r.state)))
}

/// One bypass bin. Refusals: 1, 2, 3, 6.
pub fn decode_bypass(payload: &[u8], state: State) -> Result<(bool, State), Refusal> {
    bin(unsafe { bulmegart_decode_bypass(payload.as_ptr(), payload.len(), state.raw()) })
}

/// Bypass bins, 0 to 32 of them, the first one highest. Refusals: 1, 2, 4 (count), 3, 6.
pub fn decode_bypass_bits(payload: &[u8], state: State, count: u32) -> Result<(u32, State), Refusal> {
    bins(unsafe { bulmegart_decode_bypass_bits(payload.as_ptr(), payload.len(), state.raw(), count) })
}

/// Terminate: true ends the engine. Refusals: 1, 2, 3, 6.
pub fn decode_terminate(payload: &[u8], state: State) -> Result<(bool, State), Refusal> {
    bin(unsafe { bulmegart_decode_terminate(payload.as_ptr(), payload.len(), state.raw()) })
}

/// Alignment of the range, as before escape data: range 256; offset, position and past stay. Refusals: 1, 2, 3, 6, 7.
pub fn align_bypass(payload: &[u8], state: State) -> Result<State, Refusal> {
    let r = unsafe { bulmegart_align_bypass(payload.as_ptr(), payload.len(), state.raw()) };
    accepted(r.number, seen(r.state))
}

/// Byte alignment: the position rounded up to a whole byte. Refusals: 1, 2, 3.
pub fn byte_align(payload: &[u8], state: State) -> Result<State, Refusal> {
    let r = unsafe { bulmegart_byte_align(payload.as_ptr(), payload.len(), state.raw()) };
    accepted(r.number, seen(r.state))
}

/// The rest of the payload behind byte alignment. Refusals: 1, 2, 3.
pub fn rest(payload: &[u8], state: State) -> Result<&[u8], Refusal> {
    let r = unsafe { bulmegart_rest(payload.as_ptr(), payload.len(), state.raw()) };
    accepted(r.number, &payload[r.first..])
}

/// Restart: align, range 510, 9 bits; ended is cleared, past kept, and added to if it reads past the end. Refusals: 1, 2, 3, 5.
pub fn restart(payload: &[u8], state: State) -> Result<State, Refusal> {
    let r = unsafe { bulmegart_restart(payload.as_ptr(), payload.len(), state.raw()) };
    accepted(r.number, seen(r.state))
}

/// Raw bits, 0 to 32 of them, in any phase: range and offset stay. Refusals: 1, 2, 4 (count), 3.
pub fn read_bits(payload: &[u8], state: State, count: u32) -> Result<(u32, State), Refusal> {
    bins(unsafe { bulmegart_read_bits(payload.as_ptr(), payload.len(), state.raw(), count) })
}

/// One block from a payload. Levels stand row by row, y·n + x; places past n·n are never changed.
///
/// Refusals: 1, 2, 4, 3, 6 with the levels untouched, then 7 or 8 in the order of reading with n·n levels zero. Contexts and
/// statistics move on acceptance alone.
pub fn residual_coding(
    payload: &[u8],
    state: State,
    contexts: &mut [u8; CONTEXTS],
    statistics: &mut [u8; STATISTICS],
    params: Params,
    levels: &mut [i32],
) -> Result<(Found, State), Refusal> {
    block_by(bulmegart_residual_coding, payload, state, contexts, statistics, params, levels)
}

/// One block from a bin list, which it must end.
///
/// Refusals: 4, 3 with the levels untouched, then 8 or 13 in the order of reading with n·n levels zero. Statistics move on
/// acceptance alone.
pub fn read_bins(list: &[u8], statistics: &mut [u8; STATISTICS], params: Params, levels: &mut [i32]) -> Result<Found, Refusal> {
    list_by(bulmegart_read_bins, list, statistics, params, levels)
}

/// One block as a bin list at the front of the room: the one list that [`read_bins`] reads as exactly these levels, skip and RDPCM. Answers
/// its length; the room beyond it is untouched.
///
/// Refusals, with room and statistics untouched: 4, 3, 9, 10, 8, 11, 12. One of 9, 10, 8, 11 is given exactly when no list of any length reads
/// as those, 12 exactly when one does and none fits the room.
pub fn write_bins(
    params: Params,
    statistics: &mut [u8; STATISTICS],
    levels: &[i32],
    skip: bool,
    rdpcm: Rdpcm,
    room: &mut [u8],
) -> Result<usize, Refusal> {
    write_by(bulmegart_write_bins, params, statistics, levels, skip, rdpcm, room)
}

type BlockCall = unsafe extern "C" fn(*const u8, usize, RawState, *mut u8, *mut u8, RawParams, *mut i32, usize) -> RawBlockAnswer;
type ListCall = unsafe extern "C" fn(*const u8, usize, *mut u8, RawParams, *mut i32, usize) -> RawListAnswer;
type WriteCall = unsafe extern "C" fn(RawParams, *mut u8, *const i32, usize, u8, u8, *mut u8, usize) -> RawWriteAnswer;

// The three calls as the full entry points and the plain ones share them. Sound: every pointer comes from a borrow of the length handed on,
// and what is written is borrowed alone.
fn block_by(
    call: BlockCall,
    payload: &[u8],
    state: State,
    contexts: &mut [u8; CONTEXTS],
    statistics: &mut [u8; STATISTICS],
    params: Params,
    levels: &mut [i32],
) -> Result<(Found, State), Refusal> {
    let r = unsafe {
        call(
            payload.as_ptr(),
            payload.len(),
            state.raw(),
            contexts.as_mut_ptr(),
            statistics.as_mut_ptr(),
            params.raw(),
            levels.as_mut_ptr(),
            levels.len(),
        )
    };
    accepted(r.number, (found(r.found), seen(r.state)))
}

fn list_by(
    call: ListCall,
    list: &[u8],
    statistics: &mut [u8; STATISTICS],
    params: Params,
    levels: &mut [i32],
) -> Result<Found, Refusal> {
    let r = unsafe { call(list.as_ptr(), list.len(), statistics.as_mut_ptr(), params.raw(), levels.as_mut_ptr(), levels.len()) };
    accepted(r.number, found(r.found))
}

fn write_by(
    call: WriteCall,
    params: Params,
    statistics: &mut [u8; STATISTICS],
    levels: &[i32],
    skip: bool,
    rdpcm: Rdpcm,
    room: &mut [u8],
) -> Result<usize, Refusal> {
    let choice = match rdpcm {
        Rdpcm::None => 0,
        Rdpcm::Horizontal => 1,
        Rdpcm::Vertical => 2,
    };
    let r = unsafe {
        call(
            params.raw(),
            statistics.as_mut_ptr(),
            levels.as_ptr(),
            levels.len(),
            skip as u8,
            choice,
            room.as_mut_ptr(),
            room.len(),
        )
    };
    accepted(r.number, r.length)
}

/// One scale of cross-component prediction from a payload, of chroma component 0 or 1: 0, ±1, ±2, ±4 or ±8.
///
/// Refusals: 1, 2, 4 (component), 3, 6. Contexts move on acceptance alone.
pub fn read_scale(payload: &[u8], state: State, contexts: &mut [u8; CONTEXTS], component: u32) -> Result<(i32, State), Refusal> {
    let r = unsafe { bulmegart_read_scale(payload.as_ptr(), payload.len(), state.raw(), contexts.as_mut_ptr(), component) };
    accepted(r.number, (r.scale, seen(r.state)))
}

/// One scale from a bin list, which it must end. Refusals: 4 (component), 13.
pub fn read_scale_bins(list: &[u8], component: u32) -> Result<i32, Refusal> {
    let r = unsafe { bulmegart_read_scale_bins(list.as_ptr(), list.len(), component) };
    accepted(r.number, r.scale)
}

/// One scale as a bin list at the front of the room: the one list that [`read_scale_bins`] reads as it. Answers its length; the room beyond it is
/// untouched.
///
/// Refusals, with the room untouched: 4 (component, or a scale that is none of the nine, which is when no list of any length reads as it), 12.
pub fn write_scale_bins(component: u32, scale: i32, room: &mut [u8]) -> Result<usize, Refusal> {
    let r = unsafe { bulmegart_write_scale_bins(component, scale, room.as_mut_ptr(), room.len()) };
    accepted(r.number, r.length)
}
