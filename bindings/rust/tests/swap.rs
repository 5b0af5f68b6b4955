//! The Rust's names: each call is this crate's function of the same thing, the first refusal stays, and what comes behind it answers 0.
use bulmegart::swap::contexts::{ContextSet, CtxModel, ResidualContexts};
use bulmegart::swap::engine::{place, CabacDecoder};
use bulmegart::swap::residual_full::{residual_coding, resolve_residual_scan_tables, RextResidual, SCAN_DIAG, SCAN_HORIZ, SCAN_VERT};
use bulmegart::Refusal::*;
use bulmegart::*;

/// All options off at depth 8.
const PLAIN: RextResidual = RextResidual {
    persistent_rice: false,
    transform_skip_context: false,
    explicit_rdpcm: false,
    implicit_rdpcm: false,
    bypass_alignment: false,
    extended_precision: false,
    bit_depth: 8,
    is_inter: false,
};

type Block = (bool, usize, usize, i32, Option<u8>);

fn block(dec: &mut CabacDecoder<'_>, set: &mut ContextSet, levels: &mut [i32]) -> Result<Block, Refusal> {
    residual_coding(dec, set, resolve_residual_scan_tables(), 2, true, SCAN_DIAG, false, None, false, &PLAIN, levels)
}

/// A set whose contexts are all 64, document 01's in its cases.
fn plain_set() -> ContextSet {
    let mut set = ContextSet::init(0, 26);
    set.set_packed(&[64; CONTEXTS], &[0; STATISTICS]);
    set
}

#[test]
fn a_block() {
    let payload = [0xfe, 0x80];
    let (mut dec, mut set, mut levels) = (CabacDecoder::new(&payload).unwrap(), plain_set(), [7; 17]);
    assert_eq!(block(&mut dec, &mut set, &mut levels), Ok((false, 0, 0, 1, None)));
    assert_eq!((levels[0], &levels[1..16], levels[16]), (-1, &[0; 15][..], 7));
    let mut reader = Reader::start(&payload, &[154; CONTEXTS], 26).unwrap();
    reader.residual_coding(Params::plain(2), &mut [0; 16]).unwrap();
    assert_eq!((dec.range, dec.offset, place(&dec), dec.past()), (reader.state.range, reader.state.offset, 13, 0));
    assert_eq!(set.packed(), (reader.contexts, reader.statistics));
    assert_eq!((dec.byte_pos, dec.rest(), dec.refused()), (2, &[][..], None));
}

/// D15: the row is the greatest one that holds a level.
#[test]
fn the_row_of_a_level() {
    let (mut dec, mut levels) = (CabacDecoder::new_borrowed(&[0x75, 0x7f, 0x80]).unwrap(), [0; 16]);
    let (_, column, row, ..) = block(&mut dec, &mut plain_set(), &mut levels).unwrap();
    assert_eq!((column, row, levels[1] != 0, levels[4] != 0), (1, 1, true, true));
}

#[test]
fn bins() {
    let payload = [0x5a, 0xc3, 0x96, 0x0f, 0x33, 0x71];
    let (mut dec, mut state) = (CabacDecoder::new_borrowed(&payload).unwrap(), start(&payload).unwrap());
    let (mut model, mut context) = (CtxModel::init(110, 30), init(110, 30));
    for _ in 0..3 {
        let (bin, next) = decode_bin(&payload, state, &mut context).unwrap();
        assert_eq!((dec.decode_bin(&mut model), model.state), (bin.into(), context));
        let (bin, next) = decode_bypass(&payload, next).unwrap();
        assert_eq!(dec.decode_bypass(), bin.into());
        let (value, next) = decode_bypass_bits(&payload, next, 5).unwrap();
        assert_eq!(dec.decode_bypass_bits(5), value);
        let (bin, next) = decode_terminate(&payload, next).unwrap();
        assert_eq!(dec.decode_terminate(), bin.into());
        assert_eq!((dec.range, dec.offset, place(&dec)), (next.range, next.offset, next.position));
        state = next;
    }
    dec.byte_align();
    assert_eq!((8 * dec.byte_pos, dec.rest()), (place(&dec), rest(&payload, state).unwrap()));
    assert_eq!(dec.refused(), None);
}

/// Terminate by 1, samples, a new start.
#[test]
fn samples_and_a_new_start() {
    let payload = [0xfe, 0x00, 0xab, 0xcd, 0x12, 0x34];
    let mut dec = CabacDecoder::new_borrowed(&payload).unwrap();
    assert_eq!((dec.decode_terminate(), place(&dec)), (1, 9));
    dec.byte_align();
    assert_eq!((dec.byte_pos, dec.read_pcm_bits(0), dec.read_pcm_bits(12), place(&dec)), (2, 0, 0xabc, 28));
    dec.reinit_after_pcm();
    assert_eq!((dec.range, dec.offset, place(&dec), dec.refused()), (510, 0x24, 41, None));
    dec.byte_pos = 2;
    dec.reinit_engine();
    assert_eq!((dec.range, dec.offset, place(&dec), dec.refused()), (510, 0x157, 25, None));
}

#[test]
fn payloads_that_are_not_taken() {
    assert_eq!(CabacDecoder::new(&[0]).err(), Some(ShortPayload));
    assert_eq!(CabacDecoder::new_borrowed(&vec![0; 16_777_217]).err(), Some(LongPayload));
    assert_eq!(CabacDecoder::new_borrowed(&[0xff, 0]).err(), Some(BadStart));
    let mut dec = CabacDecoder::new(&[0, 0, 0]).unwrap();
    dec.decode_bypass();
    assert_eq!((dec.reset_with(&[0]), dec.reset_with(&[0xff, 0xff]), place(&dec), dec.refused()), (Err(ShortPayload), Err(BadStart), 10, None));
    assert_eq!((dec.reset_with(&[1, 0]), place(&dec), dec.offset), (Ok(()), 9, 2));
}

/// Every call behind the first refusal answers 0 and moves nothing, until another payload is taken up.
#[test]
fn the_first_refusal_stays() {
    let payload = [0xfe, 0x00, 0xff, 0xff];
    let wrong: [(Refusal, fn(&mut CabacDecoder)); 6] = [
        (Ended, |dec| assert_eq!((dec.decode_terminate(), dec.decode_bypass()), (1, 0))),
        (BadParameter, |dec| assert_eq!(dec.decode_bypass_bits(33), 0)),
        (BadParameter, |dec| assert_eq!(dec.read_pcm_bits(33), 0)),
        (BadAlignment, |dec| dec.align_bypass()),
        (ImpossibleState, |dec| assert_eq!(dec.decode_bin(&mut CtxModel { state: 128 }), 0)),
        (BadStart, |dec| {
            dec.byte_pos = 2;
            dec.reinit_engine()
        }),
    ];
    for (refusal, call) in wrong {
        let mut dec = CabacDecoder::new_borrowed(&payload).unwrap();
        call(&mut dec);
        assert_eq!(dec.refused(), Some(refusal));
        let (range, offset, at) = (dec.range, dec.offset, place(&dec));
        let (mut set, mut levels, mut model) = (plain_set(), [7; 16], CtxModel::new(3, 1));
        assert_eq!((dec.decode_bin(&mut model), model), (0, CtxModel::new(3, 1)));
        assert_eq!((dec.decode_bypass(), dec.decode_bypass_bits(33), dec.decode_terminate(), dec.read_pcm_bits(5)), (0, 0, 0, 0));
        dec.align_bypass();
        dec.byte_align();
        dec.reinit_engine();
        dec.reinit_after_pcm();
        assert_eq!((block(&mut dec, &mut set, &mut levels), levels, set), (Err(refusal), [7; 16], plain_set()));
        assert_eq!((dec.range, dec.offset, place(&dec), dec.refused()), (range, offset, at, Some(refusal)));
        dec.reset_with(&[0, 0]).unwrap();
        assert_eq!((dec.refused(), dec.decode_bypass_bits(3)), (None, 0));
    }
}

/// D2 and what is refused before anything is read: the contexts stand.
#[test]
fn refused_blocks() {
    let (mut set, tables) = (plain_set(), resolve_residual_scan_tables());
    let payload = [0xca, 0x7f, 0xfe, 0x1f, 0xe1, 0xfc];
    let (mut dec, mut levels) = (CabacDecoder::new_borrowed(&payload).unwrap(), [7; 16]);
    assert_eq!((block(&mut dec, &mut set, &mut levels), levels), (Err(LevelOutOfRange), [0; 16]));
    assert_eq!((dec.refused(), place(&dec), &set), (Some(LevelOutOfRange), 9, &plain_set()));
    let bad: [(u32, u8, u8, usize); 6] = [(1, SCAN_DIAG, 8, 16), (6, SCAN_DIAG, 8, 16), (2, 3, 8, 16), (2, SCAN_HORIZ, 7, 16), (2, SCAN_VERT, 17, 16), (2, SCAN_VERT, 8, 15)];
    for (log2, scan, bit_depth, room) in bad {
        let (mut dec, mut levels) = (CabacDecoder::new_borrowed(&[0, 0]).unwrap(), vec![7; room]);
        let rext = RextResidual { bit_depth, ..PLAIN };
        let r = residual_coding(&mut dec, &mut set, tables, log2, true, scan, false, None, false, &rext, &mut levels);
        assert_eq!((r, levels, dec.refused(), &set), (Err(BadParameter), vec![7; room], Some(BadParameter), &plain_set()));
    }
}

/// Past the end the place stays, and the bits are counted.
#[test]
fn past_the_end() {
    let mut dec = CabacDecoder::new_borrowed(&[0x80, 0]).unwrap();
    assert_eq!((dec.decode_bypass_bits(10), place(&dec), dec.past(), dec.refused()), (514, 16, 3, None));
}

/// Fields of a struct that is the caller's own, beside what else it has.
#[test]
fn a_set_of_the_callers_own() {
    struct Mine {
        split_cu_flag: [CtxModel; 3],
        last_sig_coeff_x_prefix: [CtxModel; 18],
        last_sig_coeff_y_prefix: [CtxModel; 18],
        sig_coeff_flag: [CtxModel; 44],
        coded_sub_block_flag: [CtxModel; 4],
        coeff_abs_level_greater1: [CtxModel; 24],
        coeff_abs_level_greater2: [CtxModel; 6],
        stat_coeff: [u8; 4],
        explicit_rdpcm_flag: [CtxModel; 2],
        explicit_rdpcm_dir: [CtxModel; 2],
        transform_skip_flag: [CtxModel; 2],
        log2_res_scale_abs_plus1: [CtxModel; 8],
        res_scale_sign_flag: [CtxModel; 2],
    }
    residual_contexts!(Mine);
    let c = CtxModel { state: 64 };
    let mut mine = Mine {
        split_cu_flag: [CtxModel::init(139, 26); 3],
        last_sig_coeff_x_prefix: [c; 18],
        last_sig_coeff_y_prefix: [c; 18],
        sig_coeff_flag: [c; 44],
        coded_sub_block_flag: [c; 4],
        coeff_abs_level_greater1: [c; 24],
        coeff_abs_level_greater2: [c; 6],
        stat_coeff: [0; 4],
        explicit_rdpcm_flag: [c; 2],
        explicit_rdpcm_dir: [c; 2],
        transform_skip_flag: [c; 2],
        log2_res_scale_abs_plus1: [c; 8],
        res_scale_sign_flag: [c; 2],
    };
    let (mut dec, mut set) = (CabacDecoder::new(&[0xfe, 0x80]).unwrap(), plain_set());
    block(&mut dec, &mut set, &mut [0; 16]).unwrap();
    dec.reset_with(&[0xfe, 0x80]).unwrap();
    residual_coding(&mut dec, &mut mine, resolve_residual_scan_tables(), 2, true, 0, false, None, false, &PLAIN, &mut [0; 16]).unwrap();
    assert_eq!(mine.packed(), set.packed());
    let numbers = std::array::from_fn(|k| k as u8 % 128);
    mine.set_packed(&numbers, &[1, 2, 3, 4]);
    assert_eq!((mine.packed(), mine.split_cu_flag), ((numbers, [1, 2, 3, 4]), [CtxModel::init(139, 26); 3]));
}
