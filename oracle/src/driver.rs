// A caller of the Rust's API, as a slice decoder is. It is compiled three times, with another `use .. as side` before it each time (swap.rs): on the Rust, on
// bulmegart::swap, and on bulmegart::swap within the Rust's own contexts.rs.
use super::{Block, Call, Heard, Segment, Step};
use crate::bench::VALUE;
use bulmegart::{CONTEXTS, Params};
use side::contexts::{ContextSet, CtxModel};
use side::engine::{CabacDecoder, place};
use side::residual_full::{RextResidual, residual_coding, resolve_residual_scan_tables};

/// The fields of a set that a residual has, in the order of their numbers.
macro_rules! residual_fields {
    ($set:expr) => {
        [
            &mut $set.last_sig_coeff_x_prefix[..],
            &mut $set.last_sig_coeff_y_prefix[..],
            &mut $set.sig_coeff_flag[..],
            &mut $set.coded_sub_block_flag[..],
            &mut $set.coeff_abs_level_greater1[..],
            &mut $set.coeff_abs_level_greater2[..],
            &mut $set.transform_skip_flag[..],
            &mut $set.explicit_rdpcm_flag[..],
            &mut $set.explicit_rdpcm_dir[..],
            &mut $set.log2_res_scale_abs_plus1[..],
            &mut $set.res_scale_sign_flag[..],
        ]
    };
}

fn context(set: &mut ContextSet, number: usize) -> &mut CtxModel {
    residual_fields!(set).into_iter().flatten().nth(number).unwrap()
}

fn packed(set: &mut ContextSet) -> [u8; CONTEXTS] {
    let mut all = residual_fields!(set).into_iter().flatten().map(|model| model.state);
    std::array::from_fn(|_| all.next().unwrap())
}

/// The contexts of a fresh set.
pub fn initial(init_type: u8, qp: u8) -> [u8; CONTEXTS] {
    packed(&mut ContextSet::init(init_type, qp))
}

/// A context made in each way.
pub fn made(value: u8, qp: u8) -> [u8; 2] {
    [CtxModel::init(value, qp).state, CtxModel::new(value & 63, qp & 1).state]
}

#[inline]
fn options(p: &Params) -> RextResidual {
    RextResidual {
        persistent_rice: p.persistent,
        transform_skip_context: p.skip_context,
        explicit_rdpcm: p.explicit_rdpcm,
        implicit_rdpcm: p.implicit_rdpcm,
        bypass_alignment: p.aligning,
        extended_precision: p.extended,
        bit_depth: p.depth as u8,
        is_inter: p.inter,
    }
}

#[inline]
fn block(dec: &mut CabacDecoder<'_>, set: &mut ContextSet, p: &Params, levels: &mut [i32]) -> Option<Block> {
    let tables = resolve_residual_scan_tables();
    let skip = p.skip_allowed.then_some(0);
    residual_coding(dec, set, tables, p.log2, p.luma, p.scan as u8, p.hiding, skip, p.lossless, &options(p), levels).answer()
}

/// What `residual_coding` gives: in the Rust always a block.
trait Answer {
    fn answer(self) -> Option<Block>;
}

impl Answer for Block {
    fn answer(self) -> Option<Block> {
        Some(self)
    }
}

impl<E> Answer for Result<Block, E> {
    fn answer(self) -> Option<Block> {
        self.ok()
    }
}

/// The calls one after the other, up to the first that `stops` or to `limit` calls. None if the payload is not taken.
pub fn sequence(payload: &[u8], init: (u8, u8), calls: &[Call], limit: usize, stops: impl Fn(&CabacDecoder<'_>) -> bool) -> Option<Heard> {
    let mut dec = CabacDecoder::new_borrowed(payload).ok()?;
    let mut set = ContextSet::init(init.0, init.1);
    let mut heard = Heard { begun: (dec.range, dec.offset, place(&dec)), ..Heard::default() };
    let mut levels = [0; 1024];
    for call in &calls[..limit.min(calls.len())] {
        let mut value = 0;
        let mut found = None;
        match call {
            Call::Bin(number) => value = dec.decode_bin(context(&mut set, *number)) as u32,
            Call::Bypass => value = dec.decode_bypass() as u32,
            Call::Bits(count) => value = dec.decode_bypass_bits(*count),
            Call::Terminate => value = dec.decode_terminate() as u32,
            Call::Align => dec.align_bypass(),
            Call::Restart => {
                dec.byte_align();
                heard.bytes.push(dec.byte_pos);
                dec.reinit_engine();
            }
            Call::Pcm(counts) => {
                dec.byte_align();
                heard.bytes.push(dec.byte_pos);
                for &count in counts {
                    value = value.wrapping_mul(31).wrapping_add(dec.read_pcm_bits(count));
                }
                dec.reinit_after_pcm();
            }
            Call::Again => {
                if dec.reset_with(payload).is_err() {
                    heard.refused = true;
                }
            }
            Call::Contexts(init_type, qp) => set = ContextSet::init(*init_type, *qp),
            Call::Block(p) => {
                heard.before = Some((packed(&mut set), set.stat_coeff));
                found = block(&mut dec, &mut set, p, &mut levels);
            }
        }
        if stops(&dec) {
            heard.refused = true;
            break;
        }
        if let Call::Block(p) = call {
            heard.levels.extend(&levels[..1 << (2 * p.log2)]);
        }
        heard.steps.push(Step { value, found, range: dec.range, offset: dec.offset, place: place(&dec) });
        heard.contexts.extend(packed(&mut set));
        heard.contexts.extend(set.stat_coeff);
    }
    Some(heard)
}

/// A recorded slice: answers each segment's state before and behind it, with the contexts. None where a bin is another one.
pub fn slice(payload: &[u8], segments: &[Segment]) -> Option<Vec<[(u32, u32, usize); 2]>> {
    let mut dec = CabacDecoder::new(payload).ok()?;
    let mut states = Vec::new();
    for (k, segment) in segments.iter().enumerate() {
        if k > 0 {
            dec.byte_align();
            if dec.byte_pos != segment.byte {
                return None;
            }
            dec.reinit_engine();
        }
        let begun = (dec.range, dec.offset, place(&dec));
        let mut contexts: Vec<CtxModel> = segment.contexts.iter().map(|c| CtxModel::new(c & 63, c >> 6)).collect();
        for &bin in &segment.bins {
            let read = match bin {
                0xfffe.. => dec.decode_bypass(),
                0xfffc.. => dec.decode_terminate(),
                _ => dec.decode_bin(&mut contexts[bin as usize / 2]),
            };
            if read != (bin & 1) as u8 {
                return None;
            }
        }
        if contexts.iter().map(|model| model.state).ne(segment.after.iter().copied()) {
            return None;
        }
        states.push([begun, (dec.range, dec.offset, place(&dec))]);
    }
    Some(states)
}

// ---- for the clock

/// Blocks of one payload, contexts carried on.
#[inline(never)]
pub fn blocks(payload: &[u8], params: &[Params], levels: &mut [i32]) -> u64 {
    let mut dec = CabacDecoder::new_borrowed(payload).unwrap();
    let mut set = ContextSet::init(0, 26);
    residual_fields!(set).into_iter().flatten().for_each(|model| *model = CtxModel::init(VALUE, 26));
    let mut sum = 0;
    for p in params {
        sum += block(&mut dec, &mut set, p, levels).unwrap().3 as u64;
    }
    sum * 1024 + dec.offset as u64
}

/// Decisions on a few contexts in turn.
#[inline(never)]
pub fn decisions(payload: &[u8], count: usize) -> u64 {
    let mut dec = CabacDecoder::new_borrowed(payload).unwrap();
    let mut set = ContextSet::init(0, 26);
    let mut sum = 0;
    for k in 0..count {
        sum += dec.decode_bin(&mut set.sig_coeff_flag[k % 44]) as u64;
    }
    sum * 1024 + dec.offset as u64
}

/// Bypass bins one by one.
#[inline(never)]
pub fn bypasses(payload: &[u8], count: usize) -> u64 {
    let mut dec = CabacDecoder::new_borrowed(payload).unwrap();
    let mut sum = 0;
    for _ in 0..count {
        sum += dec.decode_bypass() as u64;
    }
    sum * 1024 + dec.offset as u64
}

/// Bypass bins, eight at once.
#[inline(never)]
pub fn eights(payload: &[u8], count: usize) -> u64 {
    let mut dec = CabacDecoder::new_borrowed(payload).unwrap();
    let mut sum = 0;
    for _ in 0..count / 8 {
        sum += dec.decode_bypass_bits(8) as u64;
    }
    sum * 1024 + dec.offset as u64
}
