//! Where the reading of a block ends, behind a refusal too, and what it draws past the end of its payload.
use crate::raw::{RawParams, RawState};
use crate::{seen, Params, State, CONTEXTS, STATISTICS};
use std::mem::{offset_of, size_of};

/// As include/bulmegart.h has it.
#[repr(C)]
#[derive(Clone, Copy, Debug, PartialEq, Eq)]
pub struct RawReachedAnswer {
    /// Where the call ends.
    pub state: RawState,
    /// Bits past the end that it draws.
    pub past: u32,
}

const _: () = assert!(size_of::<RawReachedAnswer>() == 32 && offset_of!(RawReachedAnswer, state) == 0 && offset_of!(RawReachedAnswer, past) == 24);

extern "C" {
    /// See [`reached`].
    pub fn bulmegart_reached(
        payload: *const u8,
        length: usize,
        state: RawState,
        contexts: *const u8,
        statistics: *const u8,
        params: RawParams,
        levels: *const i32,
        levels_length: usize,
    ) -> RawReachedAnswer;
}

/// Where [`residual_coding`](crate::residual_coding) with the same arguments ends, by 7 or 8 too, and how many bits past the payload's end that call
/// draws, up to 65,535; a total handed in is not counted. Where another number refuses the call: the state handed in, and 0. Nothing is changed.
///
/// No bit behind the position reached can matter, where none past the end was drawn: another payload that has and agrees in those before it gives the same.
pub fn reached(
    payload: &[u8],
    state: State,
    contexts: &[u8; CONTEXTS],
    statistics: &[u8; STATISTICS],
    params: Params,
    levels: &[i32],
) -> (State, u32) {
    // Sound: every pointer comes from a borrow of the length handed on, and nothing is written.
    let r = unsafe {
        bulmegart_reached(
            payload.as_ptr(),
            payload.len(),
            state.raw(),
            contexts.as_ptr(),
            statistics.as_ptr(),
            params.raw(),
            levels.as_ptr(),
            levels.len(),
        )
    };
    (seen(r.state), r.past)
}
