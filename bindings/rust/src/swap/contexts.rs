//! The Rust's `contexts.rs`, as far as a residual needs it.
use crate::{CONTEXTS, STATISTICS};

/// One context, packed: bits 0 to 5 its state, bit 6 the favoured bin.
#[derive(Clone, Copy, Debug, PartialEq, Eq)]
#[repr(transparent)]
pub struct CtxModel {
    /// The packed byte, 0 to 127; a decision on one above is refused by 3.
    pub state: u8,
}

impl CtxModel {
    /// Of a state, 0 to 63, and a favoured bin; of each the low bits are taken.
    #[inline(always)]
    pub fn new(p_state_idx: u8, val_mps: u8) -> Self {
        CtxModel { state: (p_state_idx & 63) | ((val_mps & 1) << 6) }
    }

    /// Of an initial value at a QP; a QP above 51 counts as 51.
    pub fn init(init_value: u8, qp: u8) -> Self {
        CtxModel { state: crate::init(init_value, qp) }
    }
}

/// A set of contexts that a residual can be read with. [`residual_contexts!`](crate::residual_contexts) makes one of any struct that has the Rust's fields.
pub trait ResidualContexts {
    /// The packed contexts, in the order of [`contexts`](crate::contexts), and the statistics.
    fn packed(&self) -> ([u8; CONTEXTS], [u8; STATISTICS]);
    /// Sets them all.
    fn set_packed(&mut self, contexts: &[u8; CONTEXTS], statistics: &[u8; STATISTICS]);
}

/// Makes a struct's residual fields a [`ResidualContexts`]: `residual_contexts!(ContextSet);` where the fields can be seen. They are named as the Rust's
/// are, and are arrays of [`CtxModel`](crate::swap::contexts::CtxModel); what else the struct has stays its own.
#[macro_export]
macro_rules! residual_contexts {
    ($set:ty) => {
        $crate::residual_contexts! {
            $set:
            last_sig_coeff_x_prefix LAST_X_PREFIX,
            last_sig_coeff_y_prefix LAST_Y_PREFIX,
            sig_coeff_flag SIGNIFICANCE,
            coded_sub_block_flag CODED_SUB_BLOCK,
            coeff_abs_level_greater1 GREATER1,
            coeff_abs_level_greater2 GREATER2,
            transform_skip_flag TRANSFORM_SKIP,
            explicit_rdpcm_flag RDPCM_FLAG,
            explicit_rdpcm_dir RDPCM_DIRECTION,
            log2_res_scale_abs_plus1 SCALE_VALUE,
            res_scale_sign_flag SCALE_SIGN
        }
    };
    ($set:ty: $($field:ident $range:ident),+) => {
        impl $crate::swap::contexts::ResidualContexts for $set {
            #[inline]
            fn packed(&self) -> ([u8; $crate::CONTEXTS], [u8; $crate::STATISTICS]) {
                let mut packed = [0; $crate::CONTEXTS];
                $(for (byte, model) in packed[$crate::contexts::$range].iter_mut().zip(&self.$field) {
                    *byte = model.state;
                })+
                (packed, self.stat_coeff)
            }

            #[inline]
            fn set_packed(&mut self, contexts: &[u8; $crate::CONTEXTS], statistics: &[u8; $crate::STATISTICS]) {
                $(for (model, byte) in self.$field.iter_mut().zip(&contexts[$crate::contexts::$range]) {
                    model.state = *byte;
                })+
                self.stat_coeff = *statistics;
            }
        }
    };
}

/// The contexts of a residual and of a scale, and the statistics, by the Rust's names.
#[derive(Clone, Debug, PartialEq, Eq)]
pub struct ContextSet {
    /// `last_sig_coeff_x_prefix`: 15 luma, 3 chroma.
    pub last_sig_coeff_x_prefix: [CtxModel; 18],
    /// `last_sig_coeff_y_prefix`: 15 luma, 3 chroma.
    pub last_sig_coeff_y_prefix: [CtxModel; 18],
    /// `sig_coeff_flag`: 27 luma, 15 chroma; then luma and chroma of the skip context.
    pub sig_coeff_flag: [CtxModel; 44],
    /// `coded_sub_block_flag`: 2 luma, 2 chroma.
    pub coded_sub_block_flag: [CtxModel; 4],
    /// `coeff_abs_level_greater1_flag`: 16 luma, 8 chroma.
    pub coeff_abs_level_greater1: [CtxModel; 24],
    /// `coeff_abs_level_greater2_flag`: 4 luma, 2 chroma.
    pub coeff_abs_level_greater2: [CtxModel; 6],
    /// The statistics of persistent Rice, 0 to 84 each.
    pub stat_coeff: [u8; STATISTICS],
    /// `explicit_rdpcm_flag`: luma, chroma.
    pub explicit_rdpcm_flag: [CtxModel; 2],
    /// `explicit_rdpcm_dir_flag`: luma, chroma.
    pub explicit_rdpcm_dir: [CtxModel; 2],
    /// `transform_skip_flag`: luma, chroma.
    pub transform_skip_flag: [CtxModel; 2],
    /// `log2_res_scale_abs_plus1`: 4·component + bin number.
    pub log2_res_scale_abs_plus1: [CtxModel; 8],
    /// `res_scale_sign_flag`: component.
    pub res_scale_sign_flag: [CtxModel; 2],
}

residual_contexts!(ContextSet);

impl ContextSet {
    /// As at the start of an I slice.
    pub fn init_islice(qp: u8) -> Self {
        Self::init(0, qp)
    }

    /// As at the start of a slice of initType 0 (I), 1 or 2; one above counts as 2. The statistics are 0.
    pub fn init(init_type: u8, qp: u8) -> Self {
        let (mut contexts, mut statistics) = ([0; CONTEXTS], [0; STATISTICS]);
        let values = &INITIAL[usize::from(init_type).min(2)];
        crate::init_contexts(&mut contexts, &mut statistics, values, qp).expect("as many values as contexts");
        let none = CtxModel { state: 0 };
        let mut set = ContextSet {
            last_sig_coeff_x_prefix: [none; 18],
            last_sig_coeff_y_prefix: [none; 18],
            sig_coeff_flag: [none; 44],
            coded_sub_block_flag: [none; 4],
            coeff_abs_level_greater1: [none; 24],
            coeff_abs_level_greater2: [none; 6],
            stat_coeff: statistics,
            explicit_rdpcm_flag: [none; 2],
            explicit_rdpcm_dir: [none; 2],
            transform_skip_flag: [none; 2],
            log2_res_scale_abs_plus1: [none; 8],
            res_scale_sign_flag: [none; 2],
        };
        set.set_packed(&contexts, &statistics);
        set
    }
}

/// H.265's initial values for each initType (9.3.2), in the order of [`contexts`](crate::contexts), a line or more for each syntax element.
#[rustfmt::skip]
const INITIAL: [[u8; CONTEXTS]; 3] = [
    [
        110, 110, 124, 125, 140, 153, 125, 127, 140, 109, 111, 143, 127, 111, 79, 108, 123, 63,
        110, 110, 124, 125, 140, 153, 125, 127, 140, 109, 111, 143, 127, 111, 79, 108, 123, 63,
        111, 111, 125, 110, 110, 94, 124, 108, 124, 107, 125, 141, 179, 153, 125, 107, 125, 141, 179, 153, 125, 107, 125, 141, 179, 153,
        125, 140, 139, 182, 182, 152, 136, 152, 136, 153, 136, 139, 111, 136, 139, 111, 141, 111,
        91, 171, 134, 141,
        140, 92, 137, 138, 140, 152, 138, 139, 153, 74, 149, 92, 139, 107, 122, 152, 140, 179, 166, 182, 140, 227, 122, 197,
        138, 153, 136, 167, 152, 152,
        139, 139,
        139, 139,
        139, 139,
        154, 154, 154, 154, 154, 154, 154, 154,
        154, 154,
    ],
    [
        125, 110, 94, 110, 95, 79, 125, 111, 110, 78, 110, 111, 111, 95, 94, 108, 123, 108,
        125, 110, 94, 110, 95, 79, 125, 111, 110, 78, 110, 111, 111, 95, 94, 108, 123, 108,
        155, 154, 139, 153, 139, 123, 123, 63, 153, 166, 183, 140, 136, 153, 154, 166, 183, 140, 136, 153, 154, 166, 183, 140, 136, 153,
        154, 170, 153, 123, 123, 107, 121, 107, 121, 167, 151, 183, 140, 151, 183, 140, 140, 140,
        121, 140, 61, 154,
        154, 196, 196, 167, 154, 152, 167, 182, 182, 134, 149, 136, 153, 121, 136, 137, 169, 194, 166, 167, 154, 167, 137, 182,
        107, 167, 91, 122, 107, 167,
        139, 139,
        139, 139,
        139, 139,
        154, 154, 154, 154, 154, 154, 154, 154,
        154, 154,
    ],
    [
        125, 110, 124, 110, 95, 94, 125, 111, 111, 79, 125, 126, 111, 111, 79, 108, 123, 93,
        125, 110, 124, 110, 95, 94, 125, 111, 111, 79, 125, 126, 111, 111, 79, 108, 123, 93,
        170, 154, 139, 153, 139, 123, 123, 63, 124, 166, 183, 140, 136, 153, 154, 166, 183, 140, 136, 153, 154, 166, 183, 140, 136, 153,
        154, 170, 153, 138, 138, 122, 121, 122, 121, 167, 151, 183, 140, 151, 183, 140, 140, 140,
        121, 140, 61, 154,
        154, 196, 167, 167, 154, 152, 167, 182, 182, 134, 149, 136, 153, 121, 136, 122, 169, 208, 166, 167, 154, 152, 167, 182,
        107, 167, 91, 107, 107, 167,
        139, 139,
        139, 139,
        139, 139,
        154, 154, 154, 154, 154, 154, 154, 154,
        154, 154,
    ],
];
