//! Blocks per second of both sides on the same payloads: CPU time, interleaved, the best of many rounds.
//!
//! A stream is one payload of many blocks, read one after the other with the contexts carried on, as a slice is; real blocks have a
//! payload, a state and contexts each. Both sides clear n·n places of the lent block in every call.
use crate::cabac::contexts::ContextSet;
use crate::cabac::engine::CabacDecoder;
use crate::inputs::{Real, real_blocks};
use crate::made::{Chooser, Encoder, Style, block};
use crate::model::Scans;
use crate::peer;
use crate::random::Random;
use bulmegart::{CONTEXTS, Params, Record, TrayFound, read_tray, residual_coding, start};
use std::hint::black_box;

#[repr(C)]
struct Time {
    seconds: i64,
    nanoseconds: i64,
}

unsafe extern "C" {
    fn clock_gettime(clock: i32, time: *mut Time) -> i32;
}

/// CPU time of this thread in nanoseconds.
pub fn now() -> i64 {
    let mut t = Time { seconds: 0, nanoseconds: 0 };
    // Sound: C's clock_gettime writes one timespec; 3 is CLOCK_THREAD_CPUTIME_ID on Linux.
    unsafe { clock_gettime(3, &mut t) };
    1_000_000_000 * t.seconds + t.nanoseconds
}

pub struct Stream {
    pub payload: Vec<u8>,
    pub params: Vec<Params>,
    pub levels: u64,
}

/// The initial value of every context.
pub const VALUE: u8 = 154;

fn stream(seed: u64, blocks: usize, sizes: &[u32], style: Style) -> Stream {
    let scans = Scans::new();
    let mut r = Random::new(seed);
    let mut sizes_of = Random::new(seed + 1);
    let mut c = Chooser { encoder: Encoder::new(), contexts: [bulmegart::init(VALUE, 26); CONTEXTS], random: &mut r, style, ones: 0 };
    let mut statistics = [0; 4];
    let mut levels = vec![0; 1024];
    let mut params = Vec::new();
    let mut count = 0;
    for _ in 0..blocks {
        let log2 = sizes_of.of(sizes);
        let p = Params { luma: sizes_of.chance(170), hiding: true, ..Params::plain(log2) };
        let w = block(&mut c, &p, &scans, &mut statistics, &mut levels);
        assert!(w.refusal.is_none());
        count += levels[..1 << (2 * log2)].iter().filter(|&&v| v != 0).count() as u64;
        params.push(p);
    }
    Stream { payload: c.encoder.finish(), params, levels: count }
}

#[inline(never)]
fn ours(s: &Stream, levels: &mut [i32]) -> u64 {
    let (mut contexts, mut statistics) = ([bulmegart::init(VALUE, 26); CONTEXTS], [0; 4]);
    let mut state = start(&s.payload).unwrap();
    let mut sum = 0;
    for p in &s.params {
        let (found, next) = residual_coding(&s.payload, state, &mut contexts, &mut statistics, *p, levels).unwrap();
        state = next;
        sum += found.greatest as u64;
    }
    sum * 1024 + state.offset as u64
}

#[inline(never)]
fn theirs(s: &Stream, set: &mut ContextSet, levels: &mut [i32]) -> u64 {
    peer::lend(set, &[bulmegart::init(VALUE, 26); CONTEXTS], &[0; 4]);
    let mut dec = CabacDecoder::new_borrowed(&s.payload).unwrap();
    let mut sum = 0;
    for p in &s.params {
        sum += peer::block(&mut dec, set, p, levels).greatest as u64;
    }
    sum * 1024 + dec.offset as u64
}

#[inline(never)]
fn ours_real(blocks: &[Real], levels: &mut [i32]) -> u64 {
    let mut sum = 0;
    for x in blocks {
        let (mut contexts, mut statistics) = (x.contexts, x.statistics);
        let (found, next) = residual_coding(&x.payload, x.state, &mut contexts, &mut statistics, x.params, levels).unwrap();
        sum += found.greatest as u64 + next.offset as u64;
    }
    sum
}

/// A set made before the clock runs is cloned for each block, as contexts and statistics are copied for ours.
#[inline(never)]
fn theirs_real(blocks: &[Real], sets: &[ContextSet], levels: &mut [i32]) -> u64 {
    let mut sum = 0;
    for (x, set) in blocks.iter().zip(sets) {
        let mut set = set.clone();
        let mut dec = peer::decoder(&x.payload, &x.state);
        sum += peer::block(&mut dec, &mut set, &x.params, levels).greatest as u64 + dec.offset as u64;
    }
    sum
}

pub enum Row {
    Made(Stream),
    Real(Vec<Real>, Vec<ContextSet>),
}

impl Row {
    fn blocks(&self) -> usize {
        match self {
            Row::Made(s) => s.params.len(),
            Row::Real(blocks, _) => blocks.len(),
        }
    }

    fn ours(&self, levels: &mut [i32]) -> u64 {
        match self {
            Row::Made(s) => ours(black_box(s), levels),
            Row::Real(blocks, _) => ours_real(black_box(blocks), levels),
        }
    }

    fn theirs(&self, set: &mut ContextSet, levels: &mut [i32]) -> u64 {
        match self {
            Row::Made(s) => theirs(black_box(s), set, levels),
            Row::Real(blocks, sets) => theirs_real(black_box(blocks), sets, levels),
        }
    }
}

/// Made when asked for, so that a count of instructions has one row alone.
pub type Maker<'a> = Box<dyn Fn() -> Row + 'a>;

const LONE: Style = Style { last: 90, sub_block: 60, significant: 50, greater1: 50, greater2: 60, prefix: 100, suffix: 128, longest: 11 };
const SPARSE: Style = Style { last: 150, significant: 80, ..LONE };
const MIDDLE: Style = Style { last: 200, sub_block: 150, significant: 100, greater1: 90, greater2: 100, prefix: 120, ..LONE };
const FAR: Style = Style { last: 225, sub_block: 90, ..LONE };
const DENSE: Style = Style { last: 240, sub_block: 240, significant: 190, greater1: 170, greater2: 150, prefix: 150, ..LONE };
const MIX: [u32; 10] = [2, 2, 2, 2, 3, 3, 3, 4, 4, 5];

pub fn rows(vectors: &str) -> Vec<(&'static str, Maker<'_>)> {
    let real = move |files: &[&str]| {
        let blocks: Vec<Real> = real_blocks(vectors, files)
            .into_iter()
            .filter(|x| residual_coding(&x.payload, x.state, &mut { x.contexts }, &mut { x.statistics }, x.params, &mut [0; 1024]).is_ok())
            .collect();
        let sets = blocks.iter().map(|x| {
            let mut set = peer::empty_set();
            peer::lend(&mut set, &x.contexts, &x.statistics);
            set
        });
        let sets = sets.collect();
        Row::Real(blocks, sets)
    };
    vec![
        ("4x4, one level or two", Box::new(|| Row::Made(stream(10, 4000, &[2], LONE)))),
        ("4x4 sparse", Box::new(|| Row::Made(stream(11, 4000, &[2], SPARSE)))),
        ("4x4 dense", Box::new(|| Row::Made(stream(12, 2000, &[2], DENSE)))),
        ("8x8", Box::new(|| Row::Made(stream(13, 1500, &[3], MIDDLE)))),
        ("16x16", Box::new(|| Row::Made(stream(14, 500, &[4], MIDDLE)))),
        ("32x32 sparse", Box::new(|| Row::Made(stream(15, 400, &[5], FAR)))),
        ("32x32 dense", Box::new(|| Row::Made(stream(16, 60, &[5], DENSE)))),
        ("mix, middle", Box::new(|| Row::Made(stream(17, 1000, &MIX, MIDDLE)))),
        ("mix, high rate", Box::new(|| Row::Made(stream(18, 400, &MIX, DENSE)))),
        ("real blocks, hevc.txt", Box::new(move || real(&["hevc.txt"]))),
        ("real blocks, rext.txt", Box::new(move || real(&["rext.txt"]))),
    ]
}

/// One side and one row alone, for a count of instructions.
fn alone(name: &str, row: &Row, rounds: u32, side: &str) {
    let mut levels = vec![0; 1024];
    let mut set = peer::empty_set();
    let mut sum = 0u64;
    for _ in 0..rounds {
        sum = sum.wrapping_add(if side == "ours" { row.ours(&mut levels) } else { row.theirs(&mut set, &mut levels) });
    }
    println!("{name}; {}; {sum}", row.blocks());
}

pub fn run(vectors: &str, rounds: u32, one: Option<(&str, usize)>) {
    let rows = rows(vectors);
    if let Some((side, row)) = one {
        let (name, make) = &rows[row];
        return alone(name, &make(), rounds, side);
    }
    let mut levels = vec![0; 1024];
    let mut set = peer::empty_set();
    println!("| payloads | blocks | levels a block | bytes a block | Rust, blocks/s | ours, blocks/s | ratio |");
    println!("|---|---|---|---|---|---|---|");
    for (name, make) in &rows {
        let row = &make();
        let (mut best, blocks) = ([i64::MAX; 2], row.blocks() as f64);
        assert_eq!(row.ours(&mut levels), row.theirs(&mut set, &mut levels));
        for _ in 0..rounds {
            let a = now();
            black_box(row.theirs(&mut set, &mut levels));
            let b = now();
            black_box(row.ours(&mut levels));
            let c = now();
            best = [best[0].min(b - a), best[1].min(c - b)];
        }
        let (count, bytes) = match row {
            Row::Made(s) => (format!("{:.1}", s.levels as f64 / blocks), format!("{:.1}", s.payload.len() as f64 / blocks)),
            Row::Real(..) => ("-".into(), "-".into()),
        };
        let speed = best.map(|t| blocks * 1e9 / t as f64);
        println!("| {name} | {blocks} | {count} | {bytes} | {:.0} | {:.0} | {:.2} |", speed[0], speed[1], best[0] as f64 / best[1] as f64);
    }
}

/// A tray with its records and what is lent for its answers.
struct Lent {
    stream: Stream,
    records: Vec<Record>,
}

/// Blocks per second of trays of so many blocks: the Rust and ours one block at a time, and ours in one call. As many trays as make up the blocks of a row, so that
/// no branch is met again and again with the same few answers.
pub fn trays(rounds: u32) {
    let classes: [(&str, u64, &[u32], Style, usize); 9] = [
        ("4x4, one level or two", 10, &[2], LONE, 4096),
        ("4x4 sparse", 11, &[2], SPARSE, 4096),
        ("4x4 dense", 12, &[2], DENSE, 2048),
        ("8x8", 13, &[3], MIDDLE, 1536),
        ("16x16", 14, &[4], MIDDLE, 512),
        ("32x32 sparse", 15, &[5], FAR, 512),
        ("32x32 dense", 16, &[5], DENSE, 256),
        ("mix, middle", 17, &MIX, MIDDLE, 1024),
        ("mix, high rate", 18, &MIX, DENSE, 512),
    ];
    let mut set = peer::empty_set();
    let (mut levels, mut found) = (vec![0; 256 * 1024], vec![TrayFound::default(); 256]);
    println!("| payloads | blocks a tray | trays | Rust, blocks/s | one at a time, blocks/s | ratio | in one call, blocks/s | ratio | in one call / one at a time |");
    println!("|---|---|---|---|---|---|---|---|---|");
    for (name, seed, sizes, style, total) in classes {
        for blocks in [16, 256] {
            let made = |k: usize| {
                let stream = stream(1000 * seed + k as u64, blocks, sizes, style);
                Lent { records: stream.params.iter().map(|&p| p.into()).collect(), stream }
            };
            let all: Vec<Lent> = (0..total / blocks).map(made).collect();
            for t in &all {
                let one = ours(&t.stream, &mut levels);
                assert_eq!(one, theirs(&t.stream, &mut set, &mut levels));
                assert_eq!(one, in_one_call(&t.stream, &t.records, &mut levels, &mut found));
            }
            let mut best = [i64::MAX; 3];
            for _ in 0..rounds {
                let a = now();
                all.iter().for_each(|t| _ = black_box(theirs(black_box(&t.stream), &mut set, &mut levels)));
                let b = now();
                all.iter().for_each(|t| _ = black_box(ours(black_box(&t.stream), &mut levels)));
                let c = now();
                all.iter().for_each(|t| _ = black_box(in_one_call(black_box(&t.stream), &t.records, &mut levels, &mut found)));
                let d = now();
                best = [best[0].min(b - a), best[1].min(c - b), best[2].min(d - c)];
            }
            let speed = best.map(|t| (all.len() * blocks) as f64 * 1e9 / t as f64);
            let ratio = |k: usize, j: usize| best[k] as f64 / best[j] as f64;
            let (rust, one, call) = (speed[0], speed[1], speed[2]);
            println!(
                "| {name} | {blocks} | {} | {rust:.0} | {one:.0} | {:.2} | {call:.0} | {:.2} | {:.2} |",
                all.len(),
                ratio(0, 1),
                ratio(0, 2),
                ratio(1, 2)
            );
        }
    }
}

#[inline(never)]
fn in_one_call(s: &Stream, records: &[Record], levels: &mut [i32], found: &mut [TrayFound]) -> u64 {
    let (mut contexts, mut statistics) = ([bulmegart::init(VALUE, 26); CONTEXTS], [0; 4]);
    let t = read_tray(&s.payload, start(&s.payload).unwrap(), &mut contexts, &mut statistics, records, levels, found);
    found[..t.done].iter().map(|f| f.greatest as u64).sum::<u64>() * 1024 + t.state.offset as u64
}
