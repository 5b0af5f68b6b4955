//! What the harness needs beside the included files: a decoder at any state, and a ContextSet from lent values.
use crate::cabac::contexts::{ContextSet, CtxModel};
use crate::cabac::engine::{self, CabacDecoder};
use crate::cabac::residual_full::{RextResidual, residual_coding, resolve_residual_scan_tables};
use bulmegart::{CONTEXTS, Params, State};

/// Where the lent values of each kind stand; H.265's order of syntax elements is document 01's.
macro_rules! kinds {
    ($set:expr, $lent:expr, $each:ident) => {
        $each(&mut $set.last_sig_coeff_x_prefix, &mut $lent[0..18]);
        $each(&mut $set.last_sig_coeff_y_prefix, &mut $lent[18..36]);
        $each(&mut $set.sig_coeff_flag, &mut $lent[36..80]);
        $each(&mut $set.coded_sub_block_flag, &mut $lent[80..84]);
        $each(&mut $set.coeff_abs_level_greater1, &mut $lent[84..108]);
        $each(&mut $set.coeff_abs_level_greater2, &mut $lent[108..114]);
        $each(&mut $set.transform_skip_flag, &mut $lent[114..116]);
        $each(&mut $set.explicit_rdpcm_flag, &mut $lent[116..118]);
        $each(&mut $set.explicit_rdpcm_dir, &mut $lent[118..120]);
        $each(&mut $set.log2_res_scale_abs_plus1, &mut $lent[120..128]);
        $each(&mut $set.res_scale_sign_flag, &mut $lent[128..130]);
    };
}

fn load(models: &mut [CtxModel], lent: &mut [u8]) {
    for (m, v) in models.iter_mut().zip(lent) {
        m.state = *v;
    }
}

fn store(models: &mut [CtxModel], lent: &mut [u8]) {
    for (m, v) in models.iter_mut().zip(lent) {
        *v = m.state;
    }
}

/// The set with the lent contexts and statistics; what is no part of the residual stays as it was.
pub fn lend(set: &mut ContextSet, contexts: &[u8; CONTEXTS], statistics: &[u8; 4]) {
    let mut lent = *contexts;
    kinds!(set, lent, load);
    set.stat_coeff = *statistics;
}

pub fn give_back(set: &mut ContextSet, contexts: &mut [u8; CONTEXTS], statistics: &mut [u8; 4]) {
    kinds!(set, contexts, store);
    *statistics = set.stat_coeff;
}

pub fn empty_set() -> ContextSet {
    ContextSet::init(0, 26)
}

#[derive(Clone, Copy, Debug, PartialEq, Eq)]
pub struct PeerFound {
    pub skip: bool,
    pub rdpcm: i32,
    pub column: usize,
    pub row: usize,
    pub greatest: i32,
}

#[inline]
pub fn options(p: &Params) -> RextResidual {
    RextResidual {
        persistent_rice: p.persistent,
        transform_skip_context: p.skip_context,
        explicit_rdpcm: p.explicit_rdpcm,
        implicit_rdpcm: p.implicit_rdpcm,
        bypass_alignment: p.aligning,
        extended_precision: p.extended,
        bit_depth: p.depth as u8,
        is_inter: p.inter,
    }
}

/// One block by the Rust.
#[inline]
pub fn block(dec: &mut CabacDecoder<'_>, set: &mut ContextSet, p: &Params, levels: &mut [i32]) -> PeerFound {
    let (skip, column, row, greatest, rdpcm) = residual_coding(
        dec,
        set,
        resolve_residual_scan_tables(),
        p.log2,
        p.luma,
        p.scan as u8,
        p.hiding,
        p.skip_allowed.then_some(0),
        p.lossless,
        &options(p),
        levels,
    );
    PeerFound { skip, rdpcm: rdpcm.map_or(-1, i32::from), column, row, greatest }
}

pub fn decoder<'a>(payload: &'a [u8], s: &State) -> CabacDecoder<'a> {
    engine::at(payload, s.range, s.offset, s.position)
}
