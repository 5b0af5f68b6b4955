//! The Rust's `engine.rs`.
pub use super::contexts::CtxModel;
use crate::{Refusal, State};
use std::borrow::Cow;

/// The arithmetic decoder of one payload, which has its emulation prevention bytes taken out.
///
/// The first refusal is kept ([`refused`](CabacDecoder::refused)); from then on every call answers 0 and moves nothing, until
/// [`reset_with`](CabacDecoder::reset_with).
#[derive(Clone, Debug)]
pub struct CabacDecoder<'a> {
    /// 256 to 510, unless terminate answered 1.
    pub range: u32,
    /// Below the range, unless terminate answered 1.
    pub offset: u32,
    data: Cow<'a, [u8]>,
    /// The first byte of which no bit was drawn: where [`byte_align`](CabacDecoder::byte_align) goes, and where
    /// [`reinit_engine`](CabacDecoder::reinit_engine) begins. The Rust's stands further on until it is aligned, by what its reservoir has loaded.
    pub byte_pos: usize,
    position: usize,
    ended: bool,
    past: u32,
    refusal: Option<Refusal>,
}

impl CabacDecoder<'static> {
    /// On a copy of the payload. Refusals: 1, 2, 5.
    pub fn new(data: &[u8]) -> Result<Self, Refusal> {
        Self::from_cow(Cow::Owned(data.to_vec()))
    }
}

impl<'a> CabacDecoder<'a> {
    /// On the payload itself. Refusals: 1, 2, 5.
    pub fn new_borrowed(data: &'a [u8]) -> Result<Self, Refusal> {
        Self::from_cow(Cow::Borrowed(data))
    }

    fn from_cow(data: Cow<'a, [u8]>) -> Result<Self, Refusal> {
        let state = crate::start(&data)?;
        let mut dec = CabacDecoder { range: 0, offset: 0, data, byte_pos: 0, position: 0, ended: false, past: 0, refusal: None };
        dec.put(state);
        Ok(dec)
    }

    /// On a copy of another payload, with no refusal kept. Refusals: 1, 2, 5; the decoder then stays as it was.
    pub fn reset_with(&mut self, data: &[u8]) -> Result<(), Refusal> {
        let state = crate::start(data)?;
        self.data = Cow::Owned(data.to_vec());
        self.refusal = None;
        self.put(state);
        Ok(())
    }

    /// The first refusal of any call since the payload was taken up.
    #[inline]
    pub fn refused(&self) -> Option<Refusal> {
        self.refusal
    }

    /// How many bits past the payload's end were supplied, at most 65,535; 0 means that all that was read was in the file.
    #[inline]
    pub fn past(&self) -> u32 {
        self.past
    }

    /// The rest of the payload, behind byte alignment.
    pub fn rest(&self) -> &[u8] {
        &self.data[self.position.div_ceil(8).min(self.data.len())..]
    }

    #[inline]
    pub(super) fn state(&self) -> State {
        State { range: self.range, offset: self.offset, position: self.position, ended: self.ended, past: self.past }
    }

    #[inline]
    fn put(&mut self, state: State) {
        (self.range, self.offset, self.position, self.ended, self.past) = (state.range, state.offset, state.position, state.ended, state.past);
        self.byte_pos = state.position.div_ceil(8);
    }

    /// One call: what it answers, with the state that it leaves; the kept refusal where there is one, and the first is kept.
    #[inline]
    pub(super) fn call<T>(&mut self, call: impl FnOnce(&[u8], State) -> Result<(T, State), Refusal>) -> Result<T, Refusal> {
        if let Some(refusal) = self.refusal {
            return Err(refusal);
        }
        match call(&self.data, self.state()) {
            Ok((answer, state)) => {
                self.put(state);
                Ok(answer)
            }
            Err(refusal) => {
                self.refusal = Some(refusal);
                Err(refusal)
            }
        }
    }

    /// One decision on a context, which it changes. Refusals: 3 (a context above 127), 6.
    #[inline]
    pub fn decode_bin(&mut self, ctx: &mut CtxModel) -> u8 {
        self.call(|payload, state| crate::decode_bin(payload, state, &mut ctx.state)).unwrap_or_default().into()
    }

    /// Alignment of the range, as before escape data: range 256; offset and position stay. Refusals: 6, 7.
    #[inline]
    pub fn align_bypass(&mut self) {
        self.call(|payload, state| Ok(((), crate::align_bypass(payload, state)?))).unwrap_or_default()
    }

    /// One bypass bin. Refusal: 6.
    #[inline]
    pub fn decode_bypass(&mut self) -> u8 {
        self.call(crate::decode_bypass).unwrap_or_default().into()
    }

    /// Bypass bins, 0 to 32 of them, the first one highest. Refusals: 4 (count), 6.
    #[inline]
    pub fn decode_bypass_bits(&mut self, count: u32) -> u32 {
        self.call(|payload, state| crate::decode_bypass_bits(payload, state, count)).unwrap_or_default()
    }

    /// Terminate: 1 ends the engine, so that only alignment, raw bits and a restart are left. Refusal: 6.
    #[inline]
    pub fn decode_terminate(&mut self) -> u8 {
        self.call(crate::decode_terminate).unwrap_or_default().into()
    }

    /// Byte alignment: the position rounded up to a whole byte.
    pub fn byte_align(&mut self) {
        self.call(|payload, state| Ok(((), crate::byte_align(payload, state)?))).unwrap_or_default()
    }

    /// Restart at [`byte_pos`](CabacDecoder::byte_pos), as where a row of coding tree units begins: range 510, 9 bits. Refusals: 3 (a byte
    /// beyond the payload's end), 5.
    pub fn reinit_engine(&mut self) {
        let position = self.byte_pos.saturating_mul(8);
        self.call(|payload, state| Ok(((), crate::restart(payload, State { position, ..state })?))).unwrap_or_default()
    }

    /// Alignment and restart, behind PCM samples. Refusal: 5.
    pub fn reinit_after_pcm(&mut self) {
        self.byte_align();
        self.reinit_engine();
    }

    /// Raw bits, 0 to 32 of them, as PCM samples are. Refusal: 4 (count).
    pub fn read_pcm_bits(&mut self, n: u32) -> u32 {
        self.call(|payload, state| crate::read_bits(payload, state, n)).unwrap_or_default()
    }
}

/// Bits drawn: the place of the next bit in the payload. The Rust keeps it to itself.
#[inline]
pub fn place(dec: &CabacDecoder<'_>) -> usize {
    dec.position
}
