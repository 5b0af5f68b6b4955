//! Request (v): the summary is what a fresh count gives, after everything that is done to a block.
use bulmegart::summary::{bulmegart_set_level, Form, KeptBlock, Whole, RECORDS};
use bulmegart::Refusal::*;
use bulmegart::*;

/// Count, sum and map.
fn whole(block: &KeptBlock) -> (u64, u64, u64) {
    let w = block.whole();
    (w.count, w.sum, w.map)
}

/// Counted here, sub-block by sub-block.
fn counted(block: &KeptBlock) -> (Whole, Vec<(u32, u64)>) {
    let n = 1 << block.form().log2;
    let mut subs = vec![(0, 0); n / 4 * (n / 4)];
    for (place, level) in block.levels().iter().enumerate().filter(|(_, level)| **level != 0) {
        let sub = &mut subs[place / n / 4 * (n / 4) + place % n / 4];
        *sub = (sub.0 + 1, sub.1 + u64::from(level.unsigned_abs()));
    }
    let map = subs.iter().enumerate().map(|(s, sub)| u64::from(sub.0 > 0) << s).sum();
    (Whole { count: subs.iter().map(|s| u64::from(s.0)).sum(), sum: subs.iter().map(|s| s.1).sum(), map }, subs)
}

fn is_true(block: &KeptBlock) {
    let (whole, subs) = counted(block);
    assert_eq!(block.whole(), whole);
    assert_eq!((0..RECORDS).filter_map(|s| block.sub_block(s)).collect::<Vec<_>>(), subs);
}

#[test]
fn forms() {
    for (log2, bits) in [(1, 15), (6, 15), (2, 14), (2, 23), (0, 0), (u32::MAX, u32::MAX)] {
        assert_eq!(KeptBlock::new(log2, bits), Err(BadParameter));
    }
    assert_eq!(whole(&KeptBlock::new(5, 22).unwrap()), (0, 0, 0));
}

#[test]
fn one_level_after_the_other() {
    let mut block = KeptBlock::new(2, 15).unwrap();
    for (place, level, behind) in [(0, 5, (1, 5, 1)), (0, -7, (1, 7, 1)), (5, 1, (2, 8, 1)), (0, 0, (1, 1, 1)), (0, 0, (1, 1, 1)), (5, 0, (0, 0, 0))] {
        block.set_level(place, level).unwrap();
        assert_eq!(whole(&block), behind);
        is_true(&block);
    }
}

#[test]
fn refusals_change_nothing() {
    let mut block = KeptBlock::new(2, 15).unwrap();
    block.set_level(3, -32768).unwrap();
    let before = block.clone();
    assert_eq!([block.set_level(16, 32768), block.set_level(3, 32768), block.set_level(3, -32769), block.set_level(3, i32::MIN)], [Err(BadParameter), Err(LevelOutOfRange), Err(LevelOutOfRange), Err(LevelOutOfRange)]);
    assert_eq!(block.copy_in(&KeptBlock::new(3, 15).unwrap()), Err(BadParameter));
    assert_eq!(block.copy_in(&KeptBlock::new(2, 16).unwrap()), Err(BadParameter));
    assert_eq!(block, before);
    is_true(&block);
}

#[test]
fn sub_blocks_row_by_row() {
    let mut block = KeptBlock::new(5, 22).unwrap();
    for (k, place) in [0, 31, 992, 1023, 4 * 32 + 4].into_iter().enumerate() {
        block.set_level(place, -(k as i32) - 1).unwrap();
        is_true(&block);
    }
    assert_eq!(block.whole().map, 1 | 1 << 7 | 1 << 56 | 1 << 63 | 1 << 9);
    block.set_level(0, -4_194_304).unwrap();
    assert_eq!(block.sub_block(0), Some((1, 4_194_304)));
    assert_eq!(block.sub_block(64), None);
    let mut copy = KeptBlock::new(5, 22).unwrap();
    copy.copy_in(&block).unwrap();
    assert_eq!(copy, block);
    copy.recount().unwrap();
    assert_eq!(copy, block);
    copy.clear_kept().unwrap();
    assert_eq!(copy, KeptBlock::new(5, 22).unwrap());
}

#[test]
fn reading() {
    let (mut contexts, mut statistics) = ([64; CONTEXTS], [0; STATISTICS]);
    let mut block = KeptBlock::new(2, 15).unwrap();
    block.set_level(15, 4).unwrap();
    let read = |block: &mut KeptBlock, payload: &[u8], params: Params| block.read_kept(payload, start(payload).unwrap(), &mut contexts.clone(), &mut statistics.clone(), params).map(|_| ());
    assert_eq!(read(&mut block, &[0x75, 0xff, 0x80], Params::plain(3)), Err(BadParameter));
    assert_eq!(whole(&block), (1, 4, 1));
    assert_eq!(read(&mut block, &[0x75, 0xff, 0x80], Params::plain(2)), Ok(()));
    assert_eq!((whole(&block), block.levels()[1], block.levels()[4]), ((2, 2, 1), 1, -1));
    is_true(&block);
    assert_eq!(read(&mut block, &[0xca, 0x7f, 0xfe, 0x1f, 0xe1, 0xfc], Params::plain(2)), Err(LevelOutOfRange));
    assert_eq!((whole(&block), block.levels()), ((0, 0, 0), &[0; 16][..]));
    block.set_level(3, 2).unwrap();
    let payload = [0x75, 0xff, 0x80];
    assert_eq!(block.read_kept(&[0], start(&payload).unwrap(), &mut contexts, &mut statistics, Params::plain(2)), Err(ShortPayload));
    assert_eq!(whole(&block), (1, 2, 1));
    assert_eq!(block.read_kept_bins(&[1, 0, 2], &mut statistics, Params::plain(2)), Err(BadList));
    assert_eq!(whole(&block), (0, 0, 0));
    is_true(&block);
}

#[test]
fn a_summary_that_is_not_true() {
    let (mut levels, mut counts, mut sums) = ([7; 64], [u32::MAX; RECORDS], [u64::MAX; RECORDS]);
    let form = Form { log2: 3, bits: 15 };
    let whole = Whole { count: 1, sum: 2, map: 3 };
    let r = unsafe { bulmegart_set_level(levels.as_mut_ptr(), 64, counts.as_mut_ptr(), sums.as_mut_ptr(), form, whole, 0, 0) };
    assert_eq!((r.number, r.whole), (0, Whole { count: 15 + 3 * u64::from(u32::MAX), sum: u64::MAX, map: 15 }));
    assert_eq!((counts[0], sums[0], counts[1..].iter().all(|&c| c == u32::MAX), sums[1..].iter().all(|&s| s == u64::MAX)), (15, 105, true, true));
    let r = unsafe { bulmegart_set_level(levels.as_mut_ptr(), 63, counts.as_mut_ptr(), sums.as_mut_ptr(), form, whole, 0, 0) };
    assert_eq!((r.number, r.whole), (4, whole));
}
