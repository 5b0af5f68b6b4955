//! Request (iv): trays beside the same blocks one at a time. A block's own answer is held to the Rust and the model (compare.rs); a tray must be the fold of
//! those answers, stopped where one is refused.
use crate::cases::{Asked, changes, params_of, state_text};
use crate::compare::{Bench, HELD, Input, number_of};
use crate::inputs::{self, hex};
use crate::made::{self, Chooser, Encoder};
use crate::random::Random;
use crate::sample::{hex as text, levels as levels_text};
use bulmegart::*;
use std::collections::BTreeMap;

/// What a struct that is lent holds before a call.
const UNFOUND: TrayFound = TrayFound { skip: 77, rdpcm: 77, column: 77, row: 77, greatest: 77 };

pub fn area(p: &Params) -> usize {
    1 << (2 * p.log2.min(5))
}

// ---- the cases of VECTORS/02/tray.txt

/// Records parted by ;, `K*record` for K of them.
pub fn records(all: &str) -> Vec<Params> {
    let mut out = Vec::new();
    for one in all.split(';').filter(|&one| one != "-") {
        let (times, one) = one.split_once('*').map_or((1, one), |(k, one)| (k.parse().unwrap(), one));
        out.extend(std::iter::repeat_n(params_of(one), times));
    }
    out
}

fn found_text(found: &[TrayFound]) -> String {
    let each = found.iter().map(|&f| {
        let f = Found::from(f);
        format!("{}:{}:{}:{}:{}", f.skip as u32, number_of(f.rdpcm), f.column, f.row, f.greatest)
    });
    if found.is_empty() { "-".into() } else { each.collect::<Vec<_>>().join(";") }
}

/// The levels of the blocks done, what became of the refused one, and of all behind it.
fn parts_text(tray: &Tray, records: &[Record], levels: &[i32]) -> String {
    if records.is_empty() && levels.iter().all(|&v| v == HELD) {
        return "-".into();
    }
    let mut shown: Vec<String> = parts(records, levels).take(tray.done).map(levels_text).collect();
    let mut at: usize = parts(records, levels).take(tray.done).map(<[i32]>::len).sum();
    if let Some(Refusal::BadAlignment | Refusal::LevelOutOfRange) = tray.refusal {
        let part = parts(records, levels).nth(tray.done).unwrap();
        shown.push(if part.iter().all(|&v| v == 0) { "zero" } else { "changed" }.into());
        at += part.len();
    }
    if levels[at..].iter().any(|&v| v != HELD) {
        return "changed behind".into();
    }
    if shown.len() < records.len() {
        shown.push("untouched".into());
    }
    shown.join(";")
}

pub fn case(a: &Asked) -> String {
    let payload = a.bytes("payload");
    let state = match a.state(&payload) {
        Ok(state) => state,
        Err(r) => return format!("answer={} at=start", r.number()),
    };
    let asked = records(a.get("records").unwrap());
    let records: Vec<Record> = asked.iter().map(|&p| p.into()).collect();
    let places = a.number("places", asked.iter().map(area).sum::<usize>() as i64) as usize;
    let (mut levels, mut found) = (vec![HELD; places], vec![UNFOUND; records.len() + 1]);
    let (mut contexts, mut statistics) = (a.contexts(), a.statistics());
    let t = read_tray(&payload, state, &mut contexts, &mut statistics, &records, &mut levels, &mut found);
    if found[t.done..].iter().any(|&f| f != UNFOUND) {
        return "found changed behind the blocks done".into();
    }
    format!(
        "answer={} done={} state={} changes={} stats={} found={} parts={}",
        t.refusal.map_or(0, Refusal::number),
        t.done,
        state_text(&t.state),
        changes(&a.contexts(), &contexts),
        text(&statistics),
        found_text(&found[..t.done]),
        parts_text(&t, &records, &levels)
    )
}

// ---- made trays

/// What a tray is handed.
struct Handed {
    payload: Vec<u8>,
    state: State,
    contexts: [u8; CONTEXTS],
    statistics: [u8; STATISTICS],
    params: Vec<Params>,
    /// Places and structs more, or fewer, than the records ask for.
    places: isize,
    founds: isize,
}

/// What stands behind a tray.
#[derive(Debug, PartialEq)]
struct Left {
    number: u32,
    done: usize,
    state: State,
    contexts: [u8; CONTEXTS],
    statistics: [u8; STATISTICS],
    levels: Vec<i32>,
    found: Vec<TrayFound>,
}

impl Handed {
    fn places(&self) -> usize {
        (self.params.iter().map(area).sum::<usize>() as isize + self.places).max(0) as usize
    }

    fn founds(&self) -> usize {
        (self.params.len() as isize + self.founds).max(0) as usize
    }

    fn untouched(&self, number: u32) -> Left {
        Left {
            number,
            done: 0,
            state: self.state,
            contexts: self.contexts,
            statistics: self.statistics,
            levels: vec![HELD; self.places()],
            found: vec![UNFOUND; self.founds()],
        }
    }

    /// Document 02's numbers before anything is read.
    fn refused_at_once(&self) -> u32 {
        let s = &self.state;
        let bad = |p: &Params| !(2..=5).contains(&p.log2) || p.scan > 2 || !(8..=16).contains(&p.depth);
        if self.payload.len() < 2 {
            1
        } else if self.payload.len() > 1 << 24 {
            2
        } else if self.params.len() > 256 || self.params.iter().any(bad) || self.places < 0 || self.founds < 0 {
            4
        } else if s.position > 8 * self.payload.len()
            || s.past > 65535
            || !s.ended && !((256..=510).contains(&s.range) && s.offset < s.range)
            || self.contexts.iter().any(|&c| c > 127)
            || self.statistics.iter().any(|&c| c > 84)
        {
            3
        } else if s.ended {
            6
        } else {
            0
        }
    }

    fn in_one_call(&self) -> Left {
        let mut left = self.untouched(0);
        let records: Vec<Record> = self.params.iter().map(|&p| p.into()).collect();
        let t = read_tray(&self.payload, self.state, &mut left.contexts, &mut left.statistics, &records, &mut left.levels, &mut left.found);
        Left { number: t.refusal.map_or(0, Refusal::number), done: t.done, state: t.state, ..left }
    }

    /// Each block asked for by itself, and held to the Rust and the model.
    fn one_at_a_time(&self, b: &mut Bench) -> Left {
        let mut left = self.untouched(0);
        let at_once = self.refused_at_once();
        if self.params.is_empty() || at_once != 0 {
            return self.untouched(if self.params.is_empty() { 0 } else { at_once });
        }
        let mut at = 0;
        for &params in &self.params {
            let i = Input { payload: &self.payload, state: left.state, contexts: left.contexts, statistics: left.statistics, params, room: area(&params) };
            let number = b.block(&i, false);
            let part = &mut left.levels[at..at + area(&params)];
            let r = residual_coding(&self.payload, left.state, &mut left.contexts, &mut left.statistics, params, part);
            match r {
                Ok((f, next)) => {
                    let rdpcm = (number_of(f.rdpcm) + 1) as u32;
                    left.found[left.done] = TrayFound { skip: f.skip as u32, rdpcm, column: f.column, row: f.row, greatest: f.greatest };
                    left.state = next;
                }
                Err(_) => return Left { number, ..left },
            }
            left.done += 1;
            at += part.len();
        }
        left
    }

    /// Both, which must be the same; the number and how many were done.
    fn same(&self, b: &mut Bench) -> (u32, usize) {
        let (ours, wanted) = (self.in_one_call(), self.one_at_a_time(b));
        if ours != wanted {
            println!("DIFFERENCE: payload {}\n{:?}\n{:?}", text(&self.payload), self.state, self.params);
            println!("in one call {ours:?}\none at a time {wanted:?}");
            std::process::exit(1);
        }
        (ours.number, ours.done)
    }
}

/// The recorded trays of real streams.
fn real_trays(vectors: &str) -> Vec<Handed> {
    let all = std::fs::read_to_string(format!("{vectors}/trays.txt")).expect("VECTORS has trays.txt");
    let mut out: Vec<Handed> = Vec::new();
    for line in all.lines() {
        let f: Vec<&str> = line.split(' ').collect();
        let number = |k: usize| f[k].parse::<u32>().unwrap();
        match f[0] {
            "T" => out.push(Handed {
                payload: hex(f[6]),
                state: State { range: number(3), offset: number(4), position: number(5) as usize, ended: false, past: 0 },
                contexts: hex(f[7])[..].try_into().unwrap(),
                statistics: hex(f[8])[..].try_into().unwrap(),
                params: Vec::new(),
                places: 3,
                founds: 1,
            }),
            "t" => out.last_mut().unwrap().params.push(params_of(&f[1..15].join(","))),
            _ => {}
        }
    }
    out
}

/// Blocks by chance, as many as asked for, in one payload.
fn made_tray(b: &Bench, r: &mut Random, blocks: usize) -> Handed {
    let (contexts, statistics) = (inputs::contexts(r), inputs::statistics(r));
    let style = made::Style { longest: 9, ..inputs::style(r) };
    let params: Vec<Params> = (0..blocks).map(|_| inputs::params(r)).collect();
    let mut c = Chooser { encoder: Encoder::new(), contexts, random: r, style, ones: 0 };
    let (mut after, mut levels) = (statistics, vec![0; 1024]);
    for p in &params {
        made::block(&mut c, p, &b.scans, &mut after, &mut levels);
    }
    let payload = c.encoder.finish();
    let state = start(&payload).unwrap_or(State { range: 510, offset: 0, position: 9, ended: false, past: 0 });
    Handed { payload, state, contexts, statistics, params, places: r.of(&[0, 0, 1, 40]), founds: r.of(&[0, 0, 1]) }
}

/// The tray with another record at one place and the bytes behind it changed, so often that it is stopped there by the number; whether it was.
fn stopped(b: &mut Bench, r: &mut Random, t: &Handed, place: usize, number: u32) -> bool {
    // where the block begins
    let before = Handed { payload: t.payload.clone(), params: t.params[..place].to_vec(), ..*t };
    let from = before.in_one_call();
    if from.number != 0 {
        return false;
    }
    let byte = from.state.position / 8;
    for _ in 0..20_000 {
        let mut other = Handed { payload: t.payload.clone(), params: t.params.clone(), ..*t };
        other.params[place] = Params { aligning: number == 7, ..inputs::params(r) };
        other.payload.truncate(t.payload.len().min(byte + r.below(6) as usize).max(2));
        for _ in 0..r.below(12) {
            other.payload.push(if r.chance(150) { 255 } else { r.below(256) as u8 });
        }
        other.state.past = r.of(&[0, 0, 1, 65530, 65535]);
        if other.same(b) == (number, place) {
            return true;
        }
    }
    false
}

/// One thing wrong.
fn spoil(r: &mut Random, t: &mut Handed) {
    let place = r.below(t.params.len() as u64) as usize;
    match r.below(14) {
        0 => t.params[place].log2 = r.of(&[0, 1, 6, 255, 256, 258, u32::MAX]),
        1 => t.params[place].scan = r.of(&[3, 255, 256, u32::MAX]),
        2 => t.params[place].depth = r.of(&[0, 7, 17, 264, u32::MAX]),
        3 => t.places = -1 - r.below(20) as isize,
        4 => t.founds = -1,
        5 => t.contexts[r.below(CONTEXTS as u64) as usize] = 128 + r.below(128) as u8,
        6 => t.statistics[r.below(4) as usize] = 85 + r.below(171) as u8,
        7 => t.state.range = r.of(&[0, 255, 511, u32::MAX]),
        8 => t.state.position = 8 * t.payload.len() + 1,
        9 => t.state.ended = true,
        10 => t.state.past = 65536,
        11 => t.payload.truncate(r.below(2) as usize),
        12 => t.params.resize(257, Params::plain(2)),
        _ => t.params.clear(),
    }
}

pub fn run(vectors: &str, rounds: u64, seed: u64) {
    let mut b = Bench::new();
    let mut r = Random::new(seed);
    let mut numbers: BTreeMap<u32, u64> = BTreeMap::new();
    let mut trays = 0u64;
    let real = real_trays(vectors);
    for t in &real {
        assert_eq!(t.same(&mut b), (0, t.params.len()), "a recorded tray");
    }
    println!("{} recorded trays: read as they are", real.len());
    let (mut places, mut by) = (0, [0, 0]);
    for t in &real {
        for place in 0..t.params.len() {
            places += 1;
            for (k, number) in [7, 8].into_iter().enumerate() {
                let met = stopped(&mut b, &mut r, t, place, number);
                by[k] += met as u32;
                if !met {
                    println!("not stopped by {number}: place {place} of {:?} {} bytes {:?}", t.state, t.payload.len(), t.params);
                }
            }
        }
    }
    println!("of their {places} places {} were stopped by 7 and {} by 8", by[0], by[1]);
    for round in 0..rounds {
        let blocks = r.of(&[1, 2, 3, 5, 16, 40]);
        let blocks = if round % 100 == 0 { 256 } else { blocks };
        let mut t = made_tray(&b, &mut r, blocks);
        if r.chance(128) {
            inputs::damage(&mut r, &mut t.payload);
        }
        t.state.past = r.of(&[0, 0, 0, 7, 65500, 65535]);
        let wrong = r.below(4);
        for _ in 0..if wrong == 0 { 1 + r.below(2) } else { 0 } {
            if !t.params.is_empty() {
                spoil(&mut r, &mut t);
            }
        }
        *numbers.entry(t.same(&mut b).0).or_default() += 1;
        trays += 1;
    }
    println!("{trays} made trays, by number {numbers:?}; {} blocks, each beside the Rust and the model; none differs", b.blocks);
}
