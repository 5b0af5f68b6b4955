//! The Rust's `residual_full.rs`.
use super::contexts::ResidualContexts;
use super::engine::CabacDecoder;
use crate::{Params, Rdpcm, Refusal};

/// The diagonal scan.
pub const SCAN_DIAG: u8 = 0;
/// By rows.
pub const SCAN_HORIZ: u8 = 1;
/// By columns.
pub const SCAN_VERT: u8 = 2;

/// The Rust's scan tables, which its callers resolve once and hand on. The archive has its own, so there is nothing in it.
#[derive(Clone, Copy, Debug)]
pub struct ResidualScanTables(());

/// The tables to hand on.
pub fn resolve_residual_scan_tables() -> &'static ResidualScanTables {
    &ResidualScanTables(())
}

/// The range extensions' controls of a block.
#[derive(Clone, Copy, Debug, Default, PartialEq, Eq)]
pub struct RextResidual {
    /// `persistent_rice_adaptation_enabled_flag`.
    pub persistent_rice: bool,
    /// `transform_skip_context_enabled_flag`.
    pub transform_skip_context: bool,
    /// `explicit_rdpcm_enabled_flag`.
    pub explicit_rdpcm: bool,
    /// `implicit_rdpcm_enabled_flag`, in an intra block of horizontal or vertical prediction.
    pub implicit_rdpcm: bool,
    /// `cabac_bypass_alignment_enabled_flag`.
    pub bypass_alignment: bool,
    /// `extended_precision_processing_flag`.
    pub extended_precision: bool,
    /// Of the component, 8 to 16; 4 otherwise.
    pub bit_depth: u8,
    /// An inter block.
    pub is_inter: bool,
}

/// Explicit RDPCM: none, or its direction, 0 horizontal and 1 vertical, as in document 01.
pub type RdpcmDir = Option<u8>;

/// One block: transform skip, column extent, row extent, greatest magnitude, explicit RDPCM; the levels row by row in `coeffs`.
///
/// The row is the greatest one that holds a level; the Rust's is that of the last coded position, and may be smaller.
///
/// A refusal is kept by the decoder too. Refusals: 4 (size, scan, depth, fewer than n·n places) and 3 with the levels untouched, 6 likewise, then 7 or 8
/// in the order of reading with n·n levels zero. Contexts and statistics move on acceptance alone.
#[allow(clippy::too_many_arguments)]
#[inline]
pub fn residual_coding<C: ResidualContexts>(
    dec: &mut CabacDecoder<'_>,
    ctx: &mut C,
    _scan_tables: &ResidualScanTables,
    log2_ts: u32,
    is_luma: bool,
    scan_idx: u8,
    sign_data_hiding: bool,
    transform_skip_ctx: Option<usize>,
    transquant_bypass: bool,
    rext: &RextResidual,
    coeffs: &mut [i32],
) -> Result<(bool, usize, usize, i32, RdpcmDir), Refusal> {
    let params = Params {
        log2: log2_ts,
        scan: scan_idx.into(),
        depth: rext.bit_depth.into(),
        luma: is_luma,
        hiding: sign_data_hiding,
        skip_allowed: transform_skip_ctx.is_some(),
        lossless: transquant_bypass,
        persistent: rext.persistent_rice,
        skip_context: rext.transform_skip_context,
        explicit_rdpcm: rext.explicit_rdpcm,
        implicit_rdpcm: rext.implicit_rdpcm,
        inter: rext.is_inter,
        aligning: rext.bypass_alignment,
        extended: rext.extended_precision,
    };
    let (mut contexts, mut statistics) = ctx.packed();
    let found = dec.call(|payload, state| crate::residual_coding(payload, state, &mut contexts, &mut statistics, params, coeffs))?;
    ctx.set_packed(&contexts, &statistics);
    let rdpcm = match found.rdpcm {
        Rdpcm::None => None,
        Rdpcm::Horizontal => Some(0),
        Rdpcm::Vertical => Some(1),
    };
    Ok((found.skip, found.column as usize, found.row as usize, found.greatest as i32, rdpcm))
}
