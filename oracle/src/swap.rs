//! bulmegart::swap beside the Rust: one caller (driver.rs), compiled on each, given the same sequences of calls.
use crate::bench::{self, Row, now};
use crate::compare::{Bench, Input};
use crate::inputs::{bytes, hex, params};
use crate::made::{Chooser, Encoder, Style, block};
use crate::model::{Kind, Scans, Source, greatest_row};
use crate::random::Random;
use bulmegart::{CONTEXTS, Params, State};
use std::cell::Cell;
use std::collections::BTreeMap;
use std::hint::black_box;

mod rust {
    use crate::cabac as side;
    include!("driver.rs");
}
mod ours {
    use bulmegart::swap as side;
    include!("driver.rs");
}
mod within {
    use crate::swapped as side;
    include!("driver.rs");
}

/// Skip, column, row, greatest magnitude, RDPCM.
pub type Block = (bool, usize, usize, i32, Option<u8>);

#[derive(Clone, Debug)]
pub enum Call {
    /// On one of the residual's contexts.
    Bin(usize),
    Bypass,
    Bits(u32),
    Terminate,
    Align,
    /// Byte alignment and a new start, as at a row of coding tree units.
    Restart,
    /// Byte alignment, samples of so many bits, and a new start.
    Pcm(Vec<u32>),
    /// The payload from its front.
    Again,
    /// The contexts anew.
    Contexts(u8, u8),
    Block(Params),
}

#[derive(Clone, Debug, PartialEq, Eq)]
pub struct Step {
    value: u32,
    found: Option<Block>,
    range: u32,
    offset: u32,
    place: usize,
}

/// All that a sequence gave.
#[derive(Clone, Debug, Default, PartialEq, Eq)]
pub struct Heard {
    begun: (u32, u32, usize),
    steps: Vec<Step>,
    /// `byte_pos` at each alignment.
    bytes: Vec<usize>,
    levels: Vec<i32>,
    /// Contexts and statistics behind each step.
    contexts: Vec<u8>,
    /// Contexts and statistics before the last block that was asked for.
    before: Option<([u8; CONTEXTS], [u8; 4])>,
    refused: bool,
}

/// A segment of a recorded slice.
pub struct Segment {
    byte: usize,
    states: [(u32, u32, usize); 2],
    contexts: Vec<u8>,
    bins: Vec<u16>,
    after: Vec<u8>,
}

struct Sequence {
    payload: Vec<u8>,
    init: (u8, u8),
    calls: Vec<Call>,
}

fn any_call(r: &mut Random) -> Call {
    match r.below(40) {
        0..12 => Call::Bin(r.below(CONTEXTS as u64) as usize),
        12..16 => Call::Bypass,
        16..20 => Call::Bits(r.below(33) as u32),
        20..24 => Call::Terminate,
        24..26 => Call::Align,
        26..28 => Call::Restart,
        28..30 => Call::Pcm((0..r.below(6)).map(|_| r.below(33) as u32).collect()),
        30 => Call::Contexts(r.below(3) as u8, r.below(64) as u8),
        31 if r.chance(32) => Call::Again,
        _ => Call::Block(params(r)),
    }
}

fn initial(r: &mut Random) -> (u8, u8) {
    (r.below(3) as u8, r.below(64) as u8)
}

/// Any calls on any bytes.
fn wild(r: &mut Random) -> Sequence {
    let length = r.of(&[2, 3, 4, 5, 8, 13, 30, 60, 200]);
    let payload = bytes(r, length);
    Sequence { payload, init: initial(r), calls: (0..4 + r.below(20)).map(|_| any_call(r)).collect() }
}

/// Segments as a slice has them: decisions, bypass bins, blocks, terminate by 0; at the end terminate by 1, then samples or a new start.
fn slice_like(r: &mut Random, scans: &Scans) -> Sequence {
    let init = initial(r);
    let style = Style {
        last: 60 + r.below(190),
        sub_block: 30 + r.below(200),
        significant: 30 + r.below(180),
        greater1: 30 + r.below(160),
        greater2: 30 + r.below(160),
        prefix: 60 + r.below(140),
        suffix: 128,
        longest: r.of(&[4, 8, 8, 12, 16]),
    };
    let mut chosen = Random::new(r.next());
    let mut c = Chooser { encoder: Encoder::new(), contexts: rust::initial(init.0, init.1), random: &mut chosen, style, ones: 0 };
    let (mut payload, mut calls, mut statistics, mut levels) = (Vec::new(), Vec::new(), [0; 4], [0; 1024]);
    for _ in 0..1 + r.below(3) {
        for _ in 0..2 + r.below(10) {
            let call = match any_call(r) {
                Call::Restart | Call::Pcm(_) | Call::Again => Call::Bypass,
                call => call,
            };
            match &call {
                Call::Bin(number) => _ = c.decision(*number),
                Call::Bypass => _ = c.bypass(Kind::Sign),
                Call::Bits(count) => (0..*count).for_each(|_| _ = c.bypass(Kind::Sign)),
                Call::Terminate => c.encoder.go_on(),
                Call::Align => _ = c.align(),
                Call::Contexts(init_type, qp) => (c.contexts, statistics) = (rust::initial(*init_type, *qp), [0; 4]),
                Call::Block(p) => _ = block(&mut c, p, scans, &mut statistics, &mut levels),
                Call::Restart | Call::Pcm(_) | Call::Again => unreachable!(),
            }
            calls.push(call);
        }
        payload.extend(std::mem::replace(&mut c.encoder, Encoder::new()).finish());
        calls.push(Call::Terminate);
        if r.chance(128) {
            calls.push(Call::Restart);
        } else {
            let counts: Vec<u32> = (0..1 + r.below(6)).map(|_| 1 + r.below(16) as u32).collect();
            payload.extend(bytes(r, counts.iter().sum::<u32>().div_ceil(8) as usize));
            calls.push(Call::Pcm(counts));
        }
    }
    // the slice's end: mostly nothing more is asked
    if !r.chance(32) {
        calls.pop();
    } else if r.chance(128) {
        calls.pop();
        calls.push(any_call(r));
    }
    Sequence { payload, init, calls }
}

fn damaged(r: &mut Random, payload: &mut Vec<u8>) {
    if r.chance(128) {
        payload.truncate(2 + r.below(payload.len() as u64) as usize);
    }
    for _ in 0..r.below(4) {
        let place = r.below(payload.len() as u64) as usize;
        payload[place] ^= 1 << r.below(8);
    }
}

/// Nine bits from a byte's front, ones past the end.
fn nine(payload: &[u8], byte: usize) -> u32 {
    let at = |k: usize| payload.get(byte + k).copied().unwrap_or(255) as u32;
    at(0) << 1 | at(1) >> 7
}

/// The number that document 01 gives a call behind these steps; 0 where it has none to give.
fn judged(bench: &mut Bench, s: &Sequence, heard: &Heard) -> u32 {
    let k = heard.steps.len();
    let (mut ended, mut state) = (false, heard.begun);
    for (call, step) in s.calls.iter().zip(&heard.steps) {
        match call {
            Call::Terminate => ended |= step.value == 1,
            Call::Restart | Call::Pcm(_) | Call::Again => ended = false,
            _ => {}
        }
        state = (step.range, step.offset, step.place);
    }
    let (range, offset, position) = state;
    match &s.calls[k] {
        Call::Restart => 5 * (nine(&s.payload, position.div_ceil(8)) >= 510) as u32,
        Call::Pcm(counts) => {
            let behind = 8 * position.div_ceil(8) + counts.iter().sum::<u32>() as usize;
            5 * (nine(&s.payload, behind.div_ceil(8).min(s.payload.len())) >= 510) as u32
        }
        Call::Again | Call::Contexts(..) => 0,
        _ if ended => 6,
        Call::Align => 7 * (offset >= 256) as u32,
        Call::Block(params) => {
            let (contexts, statistics) = heard.before.unwrap();
            let state = State { range, offset, position, ended, past: 0 };
            let (walk, ..) = bench.model(&Input { payload: &s.payload, state, contexts, statistics, params: *params, room: 1024 });
            walk.refusal.map_or(0, |refusal| refusal.number)
        }
        Call::Bin(_) | Call::Bypass | Call::Bits(_) | Call::Terminate => 0,
    }
}

fn differ(what: &str, s: &Sequence, detail: String) -> ! {
    println!("DIFFERENCE: {what}");
    println!("payload {}\ninit {:?}", s.payload.iter().map(|b| format!("{b:02x}")).collect::<String>(), s.init);
    s.calls.iter().enumerate().for_each(|(k, call)| println!("{k} {call:?}"));
    println!("{detail}");
    std::process::exit(1);
}

#[derive(Default)]
struct Counts {
    sequences: u64,
    calls: BTreeMap<&'static str, u64>,
    refusals: BTreeMap<u32, u64>,
    rows: u64,
}

fn name(call: &Call) -> &'static str {
    match call {
        Call::Bin(_) => "decode_bin",
        Call::Bypass => "decode_bypass",
        Call::Bits(_) => "decode_bypass_bits",
        Call::Terminate => "decode_terminate",
        Call::Align => "align_bypass",
        Call::Restart => "byte_align, reinit_engine",
        Call::Pcm(_) => "byte_align, read_pcm_bits, reinit_after_pcm",
        Call::Again => "reset_with",
        Call::Contexts(..) => "ContextSet::init",
        Call::Block(_) => "residual_coding",
    }
}

/// One sequence on all three.
fn compare(bench: &mut Bench, s: &Sequence, counts: &mut Counts) {
    counts.sequences += 1;
    let number = Cell::new(0);
    let (all, refused) = (s.calls.len(), |n: Option<bulmegart::Refusal>| {
        number.set(n.map_or(0, |n| n.number()));
        n.is_some()
    });
    let ours = ours::sequence(&s.payload, s.init, &s.calls, all, |d| refused(d.refused()));
    let within = within::sequence(&s.payload, s.init, &s.calls, all, |d| refused(d.refused()));
    if ours != within {
        differ("our contexts or the Rust's", s, format!("{ours:?}\n{within:?}"));
    }
    let Some(ours) = ours else {
        if nine(&s.payload, 0) < 510 {
            differ("start", s, String::new());
        }
        *counts.refusals.entry(5).or_default() += 1;
        return;
    };
    let mut theirs = rust::sequence(&s.payload, s.init, &s.calls, ours.steps.len(), |_| false).unwrap();
    let mut at = 0;
    for (call, (a, b)) in s.calls.iter().zip(ours.steps.iter().zip(&mut theirs.steps)) {
        *counts.calls.entry(name(call)).or_default() += 1;
        if let (Call::Block(p), Some(found)) = (call, &mut b.found) {
            let n = 1usize << p.log2;
            let row = greatest_row(&theirs.levels[at..at + n * n], n);
            counts.rows += (row != found.2) as u64;
            found.2 = row;
            at += n * n;
        }
        if a != b {
            differ("a step", s, format!("ours {a:?}\nRust {b:?} of {call:?}"));
        }
    }
    let same = (&ours.begun, &ours.levels, &ours.contexts) == (&theirs.begun, &theirs.levels, &theirs.contexts);
    if !same || ours.bytes[..theirs.bytes.len()] != theirs.bytes {
        differ("levels, contexts or bytes", s, format!("{ours:?}\n{theirs:?}"));
    }
    if ours.refused != (ours.steps.len() < all) || ours.refused && judged(bench, s, &ours) != number.get() {
        differ("a refusal", s, format!("{} at call {}", number.get(), ours.steps.len()));
    }
    if ours.refused {
        *counts.refusals.entry(number.get()).or_default() += 1;
    }
}

/// The fields of a context set, and single contexts, of every value and QP.
fn contexts_agree() {
    for qp in 0..=255 {
        for init_type in 0..3 {
            assert_eq!(ours::initial(init_type, qp), rust::initial(init_type, qp));
            assert_eq!(within::initial(init_type, qp), rust::initial(init_type, qp));
        }
        (0..=255).for_each(|value| assert_eq!(ours::made(value, qp), rust::made(value, qp)));
    }
}

fn recorded(vectors: &str) -> Vec<(Vec<u8>, Vec<Segment>)> {
    let text = std::fs::read_to_string(format!("{vectors}/engine.txt")).expect("VECTORS has engine.txt");
    let mut slices: Vec<(Vec<u8>, Vec<Segment>)> = Vec::new();
    for line in text.lines() {
        let f: Vec<&str> = line.split(' ').collect();
        if f[0] == "S" {
            slices.push((hex(f[2]), Vec::new()));
            continue;
        }
        let number = |k: usize| f[k].parse::<u32>().unwrap();
        let state = |k: usize| (number(k), number(k + 1), number(k + 2) as usize);
        let contexts = hex(f[5]);
        let mut after = contexts.clone();
        for change in f[10].split(',').filter(|change| *change != "-") {
            let (place, byte) = change.split_once(':').unwrap();
            after[place.parse::<usize>().unwrap()] = u8::from_str_radix(byte, 16).unwrap();
        }
        let bins = hex(f[6]).chunks(2).map(|b| u16::from_be_bytes([b[0], b[1]])).collect();
        slices.last_mut().unwrap().1.push(Segment { byte: number(1) as usize, states: [state(2), state(7)], contexts, bins, after });
    }
    slices
}

pub fn run(vectors: &str, sequences: u64, seed: u64) {
    contexts_agree();
    println!("contexts: 65,536 values at a QP, 768 sets: all the Rust's");
    let slices = recorded(vectors);
    let mut bins = 0;
    for (payload, segments) in &slices {
        let wanted: Vec<_> = segments.iter().map(|s| s.states).collect();
        for heard in [ours::slice(payload, segments), within::slice(payload, segments), rust::slice(payload, segments)] {
            assert_eq!(heard.as_ref(), Some(&wanted));
        }
        bins += segments.iter().map(|s| s.bins.len()).sum::<usize>();
    }
    println!("engine.txt: {} slices, {} segments, {bins} bins: as recorded", slices.len(), slices.iter().map(|s| s.1.len()).sum::<usize>());
    let (mut r, mut bench, mut counts) = (Random::new(seed), Bench::new(), Counts::default());
    for k in 0..sequences {
        let mut s = if k % 2 == 0 { slice_like(&mut r, &bench.scans) } else { wild(&mut r) };
        if k % 8 == 0 {
            damaged(&mut r, &mut s.payload);
        }
        compare(&mut bench, &s, &mut counts);
    }
    println!("{} sequences agree", counts.sequences);
    counts.calls.iter().for_each(|(name, count)| println!("  {name}: {count}"));
    println!("  the Rust's row is not the greatest of its levels: {}", counts.rows);
    counts.refusals.iter().for_each(|(number, count)| println!("  ended by refusal {number}: {count}"));
}

// ---- the clock

fn timed(rounds: u32, rust: impl Fn() -> u64, ours: impl Fn() -> u64, within: impl Fn() -> u64) -> [f64; 3] {
    assert_eq!((rust(), rust()), (ours(), within()));
    let mut best = [i64::MAX; 3];
    for _ in 0..rounds {
        let a = now();
        black_box(rust());
        let b = now();
        black_box(ours());
        let c = now();
        black_box(within());
        best = [best[0].min(b - a), best[1].min(c - b), best[2].min(now() - c)];
    }
    best.map(|t| t as f64)
}

fn line(name: &str, count: usize, t: [f64; 3]) {
    let each = t.map(|t| t / count as f64);
    println!("| {name} | {:.1} | {:.1} | {:.1} | {:.2} |", each[0], each[1], each[2], t[0] / t[1]);
}

pub fn speed(vectors: &str, rounds: u32) {
    println!("| call | Rust, ns | swap, ns | swap in the Rust's contexts.rs, ns | ratio |");
    println!("|---|---|---|---|---|");
    for (name, make) in bench::rows(vectors) {
        let Row::Made(s) = make() else { continue };
        let (payload, params) = (black_box(&s.payload), black_box(&s.params));
        let t = timed(
            rounds,
            || rust::blocks(payload, params, &mut [0; 1024]),
            || ours::blocks(payload, params, &mut [0; 1024]),
            || within::blocks(payload, params, &mut [0; 1024]),
        );
        line(&format!("block, {name}"), params.len(), t);
    }
    let payload = &{
        let mut r = Random::new(7);
        let mut payload: Vec<u8> = (0..65536).map(|_| r.next() as u8).collect();
        payload[0] = 0;
        payload
    };
    let bins = 100_000;
    line("decode_bin", bins, timed(rounds, || rust::decisions(payload, bins), || ours::decisions(payload, bins), || within::decisions(payload, bins)));
    line("decode_bypass", bins, timed(rounds, || rust::bypasses(payload, bins), || ours::bypasses(payload, bins), || within::bypasses(payload, bins)));
    line("decode_bypass_bits, 8", bins / 8, timed(rounds, || rust::eights(payload, bins), || ours::eights(payload, bins), || within::eights(payload, bins)));
    let slices = recorded(vectors);
    let count = slices.iter().flat_map(|s| &s.1).map(|s| s.bins.len()).sum();
    let all = |one: fn(&[u8], &[Segment]) -> Option<Vec<[(u32, u32, usize); 2]>>| {
        slices.iter().map(|(payload, segments)| one(payload, segments).unwrap().len() as u64).sum::<u64>()
    };
    line("a bin of engine.txt's slices", count, timed(rounds, || all(rust::slice), || all(ours::slice), || all(within::slice)));
}
