//! The functions and structs of include/bulmegart.h as they are: flags are bytes, and one above 1 is answered by 4.
//!
//! A call is sound if each pointer is to as many elements as its length says ([`CONTEXTS`](crate::CONTEXTS) contexts,
//! [`STATISTICS`](crate::STATISTICS) statistics), and no buffer that is written overlaps another. With length 0 a pointer may be null.
//!
//! `number` is document 01's, 0 for accepted; after a refusal the rest of an answer is 0, and a state or context is the one handed in.
use std::mem::{offset_of, size_of};

/// The engine's state between calls.
#[repr(C)]
#[derive(Clone, Copy, Debug, PartialEq, Eq)]
pub struct RawState {
    /// 256 to 510, unless ended.
    pub range: u32,
    /// Below the range, unless ended.
    pub offset: u32,
    /// Bits drawn: the place of the next bit in the payload.
    pub position: usize,
    /// Flag: terminate answered 1.
    pub ended: u8,
    /// Bits past the end supplied since the first start, at most 65,535.
    pub past: u32,
}

/// A state; of a refused [`bulmegart_start`] zeros.
#[repr(C)]
#[derive(Clone, Copy, Debug, PartialEq, Eq)]
pub struct RawStateAnswer {
    /// Document 01's number.
    pub number: u32,
    /// Behind the call.
    pub state: RawState,
}

/// One bin.
#[repr(C)]
#[derive(Clone, Copy, Debug, PartialEq, Eq)]
pub struct RawDecisionAnswer {
    /// Document 01's number.
    pub number: u32,
    /// 0 or 1.
    pub bin: u8,
    /// The packed context behind the bin.
    pub context: u8,
    /// Behind the bin.
    pub state: RawState,
}

/// Bins or bits.
#[repr(C)]
#[derive(Clone, Copy, Debug, PartialEq, Eq)]
pub struct RawBinsAnswer {
    /// Document 01's number.
    pub number: u32,
    /// The bins or bits, the first one highest.
    pub value: u32,
    /// Behind the bins.
    pub state: RawState,
}

/// A part of the payload; after a refusal nothing at its end.
#[repr(C)]
#[derive(Clone, Copy, Debug, PartialEq, Eq)]
pub struct RawRestAnswer {
    /// Document 01's number.
    pub number: u32,
    /// The place of its first byte in the payload.
    pub first: usize,
    /// Its bytes.
    pub length: usize,
}

/// Parameters of a block; from `luma` on each is a flag.
#[repr(C)]
#[derive(Clone, Copy, Debug, PartialEq, Eq)]
pub struct RawParams {
    /// 2 to 5: the block is n by n, n = 2^log2.
    pub log2: u32,
    /// 0 diagonal, 1 rows, 2 columns.
    pub scan: u32,
    /// Bit depth of the component, 8 to 16.
    pub depth: u32,
    /// 1 luma, 0 chroma.
    pub luma: u8,
    /// Sign hiding enabled.
    pub hiding: u8,
    /// Transform skip may be coded.
    pub skip_allowed: u8,
    /// Transquant bypass.
    pub lossless: u8,
    /// Persistent Rice.
    pub persistent: u8,
    /// Skip context enabled.
    pub skip_context: u8,
    /// Explicit RDPCM enabled.
    pub explicit_rdpcm: u8,
    /// Implicit RDPCM enabled, in an intra block of mode 10 or 26.
    pub implicit_rdpcm: u8,
    /// Inter block.
    pub inter: u8,
    /// Bypass alignment enabled.
    pub aligning: u8,
    /// Extended precision.
    pub extended: u8,
}

/// What is found beside the levels.
#[repr(C)]
#[derive(Clone, Copy, Debug, PartialEq, Eq)]
pub struct RawFound {
    /// Transform skip.
    pub skip: u8,
    /// Explicit RDPCM: 0 none, 1 direction 0, 2 direction 1.
    pub rdpcm: u8,
    /// Column extent.
    pub column: u32,
    /// Row extent.
    pub row: u32,
    /// Greatest magnitude.
    pub greatest: u32,
}

/// A block from a payload.
#[repr(C)]
#[derive(Clone, Copy, Debug, PartialEq, Eq)]
pub struct RawBlockAnswer {
    /// Document 01's number.
    pub number: u32,
    /// Beside the levels.
    pub found: RawFound,
    /// Behind the block.
    pub state: RawState,
}

/// A block from a list.
#[repr(C)]
#[derive(Clone, Copy, Debug, PartialEq, Eq)]
pub struct RawListAnswer {
    /// Document 01's number.
    pub number: u32,
    /// Beside the levels.
    pub found: RawFound,
}

/// A list that was written.
#[repr(C)]
#[derive(Clone, Copy, Debug, PartialEq, Eq)]
pub struct RawWriteAnswer {
    /// Document 01's number.
    pub number: u32,
    /// Of the list, in bytes.
    pub length: usize,
}

/// A scale from a payload.
#[repr(C)]
#[derive(Clone, Copy, Debug, PartialEq, Eq)]
pub struct RawScaleAnswer {
    /// Document 01's number.
    pub number: u32,
    /// −8 to 8.
    pub scale: i32,
    /// Behind the scale.
    pub state: RawState,
}

/// A scale from a list.
#[repr(C)]
#[derive(Clone, Copy, Debug, PartialEq, Eq)]
pub struct RawScaleListAnswer {
    /// Document 01's number.
    pub number: u32,
    /// −8 to 8.
    pub scale: i32,
}

/// The header's assertions: sizes and places of all fields.
macro_rules! laid_out {
    ($type:ty, $size:literal, $($field:ident $place:literal),+) => {
        const _: () = assert!(size_of::<$type>() == $size $(&& offset_of!($type, $field) == $place)+);
    };
}
laid_out!(RawState, 24, range 0, offset 4, position 8, ended 16, past 20);
laid_out!(RawStateAnswer, 32, number 0, state 8);
laid_out!(RawDecisionAnswer, 32, number 0, bin 4, context 5, state 8);
laid_out!(RawBinsAnswer, 32, number 0, value 4, state 8);
laid_out!(RawRestAnswer, 24, number 0, first 8, length 16);
laid_out!(RawParams, 24, log2 0, scan 4, depth 8, luma 12, hiding 13, skip_allowed 14, lossless 15, persistent 16, skip_context 17);
laid_out!(RawParams, 24, explicit_rdpcm 18, implicit_rdpcm 19, inter 20, aligning 21, extended 22);
laid_out!(RawFound, 16, skip 0, rdpcm 1, column 4, row 8, greatest 12);
laid_out!(RawBlockAnswer, 48, number 0, found 4, state 24);
laid_out!(RawListAnswer, 20, number 0, found 4);
laid_out!(RawWriteAnswer, 16, number 0, length 8);
laid_out!(RawScaleAnswer, 32, number 0, scale 4, state 8);
laid_out!(RawScaleListAnswer, 8, number 0, scale 4);

extern "C" {
    /// See [`version`](crate::version).
    pub fn bulmegart_version() -> u32;
    /// See [`init`](crate::init).
    pub fn bulmegart_init(value: u8, qp: u8) -> u8;
    /// See [`init_contexts`](crate::init_contexts).
    pub fn bulmegart_init_contexts(contexts: *mut u8, statistics: *mut u8, values: *const u8, values_length: usize, qp: u8) -> u32;
    /// See [`start`](crate::start).
    pub fn bulmegart_start(payload: *const u8, length: usize) -> RawStateAnswer;
    /// See [`decode_bin`](crate::decode_bin).
    pub fn bulmegart_decode_bin(payload: *const u8, length: usize, state: RawState, context: u8) -> RawDecisionAnswer;
    /// See [`decode_bypass`](crate::decode_bypass).
    pub fn bulmegart_decode_bypass(payload: *const u8, length: usize, state: RawState) -> RawBinsAnswer;
    /// See [`decode_bypass_bits`](crate::decode_bypass_bits).
    pub fn bulmegart_decode_bypass_bits(payload: *const u8, length: usize, state: RawState, count: u32) -> RawBinsAnswer;
    /// See [`decode_terminate`](crate::decode_terminate).
    pub fn bulmegart_decode_terminate(payload: *const u8, length: usize, state: RawState) -> RawBinsAnswer;
    /// See [`align_bypass`](crate::align_bypass).
    pub fn bulmegart_align_bypass(payload: *const u8, length: usize, state: RawState) -> RawStateAnswer;
    /// See [`byte_align`](crate::byte_align).
    pub fn bulmegart_byte_align(payload: *const u8, length: usize, state: RawState) -> RawStateAnswer;
    /// See [`rest`](crate::rest).
    pub fn bulmegart_rest(payload: *const u8, length: usize, state: RawState) -> RawRestAnswer;
    /// See [`restart`](crate::restart).
    pub fn bulmegart_restart(payload: *const u8, length: usize, state: RawState) -> RawStateAnswer;
    /// See [`read_bits`](crate::read_bits).
    pub fn bulmegart_read_bits(payload: *const u8, length: usize, state: RawState, count: u32) -> RawBinsAnswer;
    /// See [`residual_coding`](crate::residual_coding).
    pub fn bulmegart_residual_coding(
        payload: *const u8,
        length: usize,
        state: RawState,
        contexts: *mut u8,
        statistics: *mut u8,
        params: RawParams,
        levels: *mut i32,
        levels_length: usize,
    ) -> RawBlockAnswer;
    /// See [`read_bins`](crate::read_bins).
    pub fn bulmegart_read_bins(
        list: *const u8,
        length: usize,
        statistics: *mut u8,
        params: RawParams,
        levels: *mut i32,
        levels_length: usize,
    ) -> RawListAnswer;
    /// See [`write_bins`](crate::write_bins).
    pub fn bulmegart_write_bins(
        params: RawParams,
        statistics: *mut u8,
        levels: *const i32,
        levels_length: usize,
        skip: u8,
        rdpcm: u8,
        room: *mut u8,
        room_length: usize,
    ) -> RawWriteAnswer;
    /// See [`read_scale`](crate::read_scale).
    pub fn bulmegart_read_scale(payload: *const u8, length: usize, state: RawState, contexts: *mut u8, component: u32) -> RawScaleAnswer;
    /// See [`read_scale_bins`](crate::read_scale_bins).
    pub fn bulmegart_read_scale_bins(list: *const u8, length: usize, component: u32) -> RawScaleListAnswer;
    /// See [`write_scale_bins`](crate::write_scale_bins).
    pub fn bulmegart_write_scale_bins(component: u32, scale: i32, room: *mut u8, room_length: usize) -> RawWriteAnswer;
    /// See [`pack_bins`](crate::pack_bins).
    pub fn bulmegart_pack_bins(
        contexts: *const u8,
        statistics: *const u8,
        params: RawParams,
        list: *const u8,
        length: usize,
        room: *mut u8,
        room_length: usize,
    ) -> RawWriteAnswer;
    /// See [`pack_scale`](crate::pack_scale).
    pub fn bulmegart_pack_scale(
        contexts: *const u8,
        component: u32,
        list: *const u8,
        length: usize,
        room: *mut u8,
        room_length: usize,
    ) -> RawWriteAnswer;
}
