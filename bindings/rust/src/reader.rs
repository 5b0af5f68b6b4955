//! A payload with all that moves while it is read.
use crate::{Found, Params, Refusal, State, CONTEXTS, STATISTICS};

/// A payload with the engine's state, the contexts and the statistics, so that one call follows the other.
///
/// Each function is that of the crate by the same name, and moves what it changes; a refusal moves nothing. The fields are the caller's to
/// look at, keep and put back, as a decoder does where a row of coding tree units begins.
///
/// ```
/// use bulmegart::{Params, Reader, Refusal, CONTEXTS};
///
/// fn first_level(payload: &[u8]) -> Result<i32, Refusal> {
///     let mut reader = Reader::start(payload, &[154; CONTEXTS], 26)?;
///     let mut levels = [0; 16];
///     reader.residual_coding(Params::plain(2), &mut levels)?;
///     Ok(levels[0])
/// }
/// assert_eq!(first_level(&[0xfe, 0x80]), Ok(-1));
/// assert_eq!(first_level(&[0xfe]), Err(Refusal::ShortPayload));
/// ```
#[derive(Clone, Debug, PartialEq, Eq)]
pub struct Reader<'a> {
    /// What is read.
    pub payload: &'a [u8],
    /// The engine behind the last call.
    pub state: State,
    /// The packed contexts behind the last call.
    pub contexts: [u8; CONTEXTS],
    /// The statistics of persistent Rice behind the last call.
    pub statistics: [u8; STATISTICS],
}

impl<'a> Reader<'a> {
    /// Contexts of initial values at a QP, and the engine at the payload's front. Refusals: 1, 2, 4 (not [`CONTEXTS`] values), 5.
    pub fn start(payload: &'a [u8], values: &[u8], qp: u8) -> Result<Reader<'a>, Refusal> {
        let (mut contexts, mut statistics) = ([0; CONTEXTS], [0; STATISTICS]);
        let state = crate::start(payload);
        match (state, crate::init_contexts(&mut contexts, &mut statistics, values, qp)) {
            (Ok(state), Ok(())) => Ok(Reader { payload, state, contexts, statistics }),
            (Err(Refusal::BadStart) | Ok(_), Err(values)) => Err(values),
            (Err(start), _) => Err(start),
        }
    }

    /// Contexts and statistics anew, as at the start of a slice; the engine stays. Refusal: 4.
    pub fn init_contexts(&mut self, values: &[u8], qp: u8) -> Result<(), Refusal> {
        crate::init_contexts(&mut self.contexts, &mut self.statistics, values, qp)
    }

    /// One decision on a packed context of the caller's own, which it changes. Refusals: 1, 2, 3, 6.
    pub fn decode_bin(&mut self, context: &mut u8) -> Result<bool, Refusal> {
        let (bin, state) = crate::decode_bin(self.payload, self.state, context)?;
        self.state = state;
        Ok(bin)
    }

    /// One bypass bin. Refusals: 1, 2, 3, 6.
    pub fn decode_bypass(&mut self) -> Result<bool, Refusal> {
        let (bin, state) = crate::decode_bypass(self.payload, self.state)?;
        self.state = state;
        Ok(bin)
    }

    /// Bypass bins, 0 to 32 of them, the first one highest. Refusals: 1, 2, 4 (count), 3, 6.
    pub fn decode_bypass_bits(&mut self, count: u32) -> Result<u32, Refusal> {
        let (value, state) = crate::decode_bypass_bits(self.payload, self.state, count)?;
        self.state = state;
        Ok(value)
    }

    /// Terminate: true ends the engine. Refusals: 1, 2, 3, 6.
    pub fn decode_terminate(&mut self) -> Result<bool, Refusal> {
        let (bin, state) = crate::decode_terminate(self.payload, self.state)?;
        self.state = state;
        Ok(bin)
    }

    /// Alignment of the range, as before escape data: range 256; offset, position and past stay. Refusals: 1, 2, 3, 6, 7.
    pub fn align_bypass(&mut self) -> Result<(), Refusal> {
        self.state = crate::align_bypass(self.payload, self.state)?;
        Ok(())
    }

    /// Byte alignment: the position rounded up to a whole byte. Refusals: 1, 2, 3.
    pub fn byte_align(&mut self) -> Result<(), Refusal> {
        self.state = crate::byte_align(self.payload, self.state)?;
        Ok(())
    }

    /// The rest of the payload behind byte alignment. Refusals: 1, 2, 3.
    pub fn rest(&self) -> Result<&'a [u8], Refusal> {
        crate::rest(self.payload, self.state)
    }

    /// Restart: align, range 510, 9 bits; ended is cleared, past kept. Refusals: 1, 2, 3, 5.
    pub fn restart(&mut self) -> Result<(), Refusal> {
        self.state = crate::restart(self.payload, self.state)?;
        Ok(())
    }

    /// Raw bits, 0 to 32 of them, in any phase: range and offset stay. Refusals: 1, 2, 4 (count), 3.
    pub fn read_bits(&mut self, count: u32) -> Result<u32, Refusal> {
        let (value, state) = crate::read_bits(self.payload, self.state, count)?;
        self.state = state;
        Ok(value)
    }

    /// One block. Refusals: 1, 2, 4, 3, 6 with the levels untouched, then 7 or 8 in the order of reading with n·n levels zero.
    pub fn residual_coding(&mut self, params: Params, levels: &mut [i32]) -> Result<Found, Refusal> {
        let (found, state) = crate::residual_coding(self.payload, self.state, &mut self.contexts, &mut self.statistics, params, levels)?;
        self.state = state;
        Ok(found)
    }

    /// One scale of cross-component prediction, of chroma component 0 or 1. Refusals: 1, 2, 4, 3, 6.
    pub fn read_scale(&mut self, component: u32) -> Result<i32, Refusal> {
        let (scale, state) = crate::read_scale(self.payload, self.state, &mut self.contexts, component)?;
        self.state = state;
        Ok(scale)
    }
}
