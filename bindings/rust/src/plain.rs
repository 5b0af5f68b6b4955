//! Plain cameras: the readers and the writer for blocks that use none of the range extensions.
//!
//! Plain is 8 bits, scans 1 and 2 at sizes 4 and 8 alone, persistent Rice, skip context, both RDPCM kinds, alignment and extended precision off,
//! and the four statistics 0. What is plain is answered as [`residual_coding`](crate::residual_coding), [`read_bins`](crate::read_bins) and
//! [`write_bins`](crate::write_bins) answer it, anything else by 24, behind 4 and before 3, with nothing touched. So no statistic is answered by 3,
//! 7 is never given, and the statistics stay 0.
use crate::raw::{RawBlockAnswer, RawListAnswer, RawParams, RawState, RawWriteAnswer};
use crate::{accepted, block_by, list_by, write_by, Found, Params, Rdpcm, Refusal, State, CONTEXTS, STATISTICS};

/// Plain parameters, all zeros after a refusal.
#[repr(C)]
#[derive(Clone, Copy, Debug, PartialEq, Eq)]
pub struct RawParamsAnswer {
    /// 0, 4 or 24.
    pub number: u32,
    /// The parameters.
    pub params: RawParams,
}

const _: () = assert!(
    std::mem::size_of::<RawParamsAnswer>() == 28
        && std::mem::offset_of!(RawParamsAnswer, number) == 0
        && std::mem::offset_of!(RawParamsAnswer, params) == 4
);

extern "C" {
    /// See [`residual_coding_plain`].
    pub fn bulmegart_residual_coding_plain(
        payload: *const u8,
        length: usize,
        state: RawState,
        contexts: *mut u8,
        statistics: *mut u8,
        params: RawParams,
        levels: *mut i32,
        levels_length: usize,
    ) -> RawBlockAnswer;
    /// See [`read_bins_plain`].
    pub fn bulmegart_read_bins_plain(
        list: *const u8,
        length: usize,
        statistics: *mut u8,
        params: RawParams,
        levels: *mut i32,
        levels_length: usize,
    ) -> RawListAnswer;
    /// See [`write_bins_plain`].
    pub fn bulmegart_write_bins_plain(
        params: RawParams,
        statistics: *mut u8,
        levels: *const i32,
        levels_length: usize,
        skip: u8,
        rdpcm: u8,
        room: *mut u8,
        room_length: usize,
    ) -> RawWriteAnswer;
    /// See [`plain_params`].
    pub fn bulmegart_plain_params(
        log2: u32,
        scan: u32,
        luma: u8,
        hiding: u8,
        skip_allowed: u8,
        lossless: u8,
        inter: u8,
    ) -> RawParamsAnswer;
}

/// What is left to say of a plain block.
///
/// ```
/// use bulmegart::plain::{plain_params, Plain};
/// use bulmegart::{Params, Refusal};
///
/// let luma = Plain { log2: 4, luma: true, ..Plain::default() };
/// assert_eq!(plain_params(luma), Ok(Params::plain(4)));
/// assert_eq!(plain_params(Plain { scan: 1, ..luma }), Err(Refusal::NotPlain));
/// ```
#[derive(Clone, Copy, Debug, Default, PartialEq, Eq)]
pub struct Plain {
    /// 2 to 5: the block is n by n, n = 2^log2.
    pub log2: u32,
    /// 0 diagonal, 1 rows, 2 columns; 1 and 2 at sizes 4 and 8 alone.
    pub scan: u32,
    /// Luma; else chroma.
    pub luma: bool,
    /// Sign hiding enabled.
    pub hiding: bool,
    /// Transform skip may be coded.
    pub skip_allowed: bool,
    /// Transquant bypass.
    pub lossless: bool,
    /// Inter block.
    pub inter: bool,
}

/// The parameters of a plain block: whatever is made passes 4 and 24 with statistics of 0 and n·n levels, and all parameters that do are made so.
///
/// Refusals: 4 (size, scan), 24 (scan 1 or 2 above size 8).
pub fn plain_params(plain: Plain) -> Result<Params, Refusal> {
    // Sound: no memory is lent.
    let r = unsafe {
        bulmegart_plain_params(
            plain.log2,
            plain.scan,
            plain.luma as u8,
            plain.hiding as u8,
            plain.skip_allowed as u8,
            plain.lossless as u8,
            plain.inter as u8,
        )
    };
    let p = r.params;
    let params = Params {
        log2: p.log2,
        scan: p.scan,
        depth: p.depth,
        luma: p.luma != 0,
        hiding: p.hiding != 0,
        skip_allowed: p.skip_allowed != 0,
        lossless: p.lossless != 0,
        persistent: p.persistent != 0,
        skip_context: p.skip_context != 0,
        explicit_rdpcm: p.explicit_rdpcm != 0,
        implicit_rdpcm: p.implicit_rdpcm != 0,
        inter: p.inter != 0,
        aligning: p.aligning != 0,
        extended: p.extended != 0,
    };
    accepted(r.number, params)
}

/// One plain block from a payload. Levels stand row by row, y·n + x; places past n·n are never changed.
///
/// Refusals: 1, 2, 4, 24, 3 (state or context), 6 with the levels untouched, then 8 with n·n levels zero. Contexts move on acceptance alone.
///
/// ```
/// use bulmegart::plain::residual_coding_plain;
/// use bulmegart::{start, Params, Refusal, CONTEXTS, STATISTICS};
///
/// let payload = [0x75, 0xff, 0x80];
/// let (mut contexts, mut statistics, mut levels) = ([64; CONTEXTS], [0; STATISTICS], [7; 16]);
/// let state = start(&payload)?;
/// let (found, _) = residual_coding_plain(&payload, state, &mut contexts, &mut statistics, Params::plain(2), &mut levels)?;
/// assert_eq!((levels[1], levels[4], found.greatest), (1, -1, 1));
/// let deep = Params { depth: 9, ..Params::plain(2) };
/// assert_eq!(residual_coding_plain(&payload, state, &mut contexts, &mut statistics, deep, &mut levels), Err(Refusal::NotPlain));
/// # Ok::<(), Refusal>(())
/// ```
pub fn residual_coding_plain(
    payload: &[u8],
    state: State,
    contexts: &mut [u8; CONTEXTS],
    statistics: &mut [u8; STATISTICS],
    params: Params,
    levels: &mut [i32],
) -> Result<(Found, State), Refusal> {
    block_by(bulmegart_residual_coding_plain, payload, state, contexts, statistics, params, levels)
}

/// One plain block from a bin list, which it must end.
///
/// Refusals: 4, 24 with the levels untouched, then 8 or 13 in the order of reading with n·n levels zero.
pub fn read_bins_plain(list: &[u8], statistics: &mut [u8; STATISTICS], params: Params, levels: &mut [i32]) -> Result<Found, Refusal> {
    list_by(bulmegart_read_bins_plain, list, statistics, params, levels)
}

/// One plain block as a bin list at the front of the room: the one list that [`read_bins_plain`] reads as exactly these levels, skip and RDPCM.
/// Answers its length; the room beyond it is untouched.
///
/// Refusals, with the room untouched: 4, 24, 9, 10 (any RDPCM, since none is coded), 8, 11, 12. One of 9, 10, 8, 11 is given exactly when no list of
/// any length reads as those, 12 exactly when one does and none fits the room.
pub fn write_bins_plain(
    params: Params,
    statistics: &mut [u8; STATISTICS],
    levels: &[i32],
    skip: bool,
    rdpcm: Rdpcm,
    room: &mut [u8],
) -> Result<usize, Refusal> {
    write_by(bulmegart_write_bins_plain, params, statistics, levels, skip, rdpcm, room)
}
