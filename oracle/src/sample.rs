//! A fixed sample of answers, as records of the program cases: one of the payload reader, one of the bin reader, and of an accepted list one of the
//! bin writer with a room of one byte less.
//! Each is an answer on which the Rust, the model and the archive agree, or the refusal that document 01 gives.
use crate::compare::{Bench, Input, refused_at_once};
use crate::inputs;
use crate::made::{self, Style};
use crate::model::{List, Walk, walk};
use crate::random::Random;
use bulmegart::{CONTEXTS, State, start};
use std::collections::BTreeMap;

/// Of each kind (number, rule, size, and whether it ran past the end) so many, accepted and refused.
const EACH: [u32; 2] = [30, 12];
const ALL: usize = 500;

pub fn hex(bytes: &[u8]) -> String {
    if bytes.is_empty() {
        return "-".into();
    }
    bytes.iter().map(|b| format!("{b:02x}")).collect()
}

pub fn levels(block: &[i32]) -> String {
    let shown: Vec<String> = block.iter().enumerate().filter(|(_, v)| **v != 0).map(|(k, v)| format!("{k}:{v}")).collect();
    if shown.is_empty() { "-".into() } else { shown.join(",") }
}

fn found(w: &Walk, block: &[i32]) -> String {
    format!("answer=0 skip={} rdpcm={} column={} row={} greatest={} levels={}", w.skip as u32, w.rdpcm, w.column, w.row, w.greatest, levels(block))
}

/// A key with its value, unless that is the one that stands for a missing key.
fn key(name: &str, value: &str, usual: &str) -> String {
    if value == usual { String::new() } else { format!(" {name}={value}") }
}

fn changes(before: &[u8], after: &[u8]) -> String {
    let changed: Vec<String> = before.iter().zip(after).enumerate().filter(|(_, (b, a))| b != a).map(|(k, (_, a))| format!("{k}:{a:02x}")).collect();
    if changed.is_empty() { "-".into() } else { changed.join(",") }
}

/// What the handed parameters and statistics add to a record.
fn handed(i: &Input) -> (String, String) {
    let p = &i.params;
    let flags = [p.hiding, p.skip_allowed, p.lossless, p.persistent, p.skip_context, p.explicit_rdpcm, p.implicit_rdpcm, p.inter, p.aligning, p.extended];
    let flags: Vec<&str> = flags.iter().map(|&on| if on { "1" } else { "0" }).collect();
    let chosen = format!("{},{},{},{},{}", p.log2, p.luma as u32, p.scan, flags.join(","), p.depth);
    (key("p", &chosen, "2,1,0,0,0,0,0,0,0,0,0,0,0,8"), key("stats", &hex(&i.statistics), "00000000"))
}

/// The records, and the kind; none where the sample leaves it out.
fn record(b: &mut Bench, i: &Input) -> Option<(String, (u32, &'static str, u32, bool))> {
    let i = &Input { state: State { past: if i.state.past > 65535 { i.state.past } else { 0 }, ..i.state }, ..*i };
    let (p, s) = (&i.params, &i.state);
    if s.ended || s.past != 0 || s.position > u32::MAX as usize || i.payload.len() > 200 || i.room < 1 << (2 * p.log2.min(5)) {
        return None;
    }
    b.block(i, false);
    let at_once = refused_at_once(i);
    let area = if (2..=5).contains(&p.log2) { 1usize << (2 * p.log2) } else { 0 };
    let (answer, list, kind);
    if at_once != 0 {
        answer = format!("answer={at_once} memory=untouched");
        list = Vec::new();
        kind = (at_once, "checks", p.log2, false);
    } else {
        let (w, e, after) = b.model(i);
        let end = 8 * i.payload.len();
        list = e.list.clone();
        answer = match w.refusal {
            None => format!(
                "{} state={},{},{},0,{} changes={} stats={}",
                found(&w, &b.modelled()[..area]),
                e.range,
                e.offset,
                e.at.min(end),
                e.at.saturating_sub(end).min(65535),
                changes(&i.contexts, &e.contexts),
                hex(&after)
            ),
            Some(r) => format!("answer={} memory=zero", r.number),
        };
        kind = (w.refusal.map_or(0, |r| r.number), w.refusal.map_or("", |r| r.rule), p.log2, e.at > end);
    }
    if list.len() > 800 {
        return None;
    }
    let (chosen, statistics) = handed(i);
    let state = format!("{},{},{},0,0", s.range, s.offset, s.position);
    let block = format!("block payload={} state={state}{chosen} ctx={}{statistics} => {answer}", hex(i.payload), hex(&i.contexts));
    Some((format!("{block}\n{}", bins(b, i, &list, area)), kind))
}

/// What the bin reader answers to the list, which is handed only parameters and statistics, and the writer to a room that is too short for it.
fn bins(b: &Bench, i: &Input, list: &[u8], area: usize) -> String {
    let p = &i.params;
    let (chosen, statistics) = handed(i);
    let read = format!("list list={}{chosen}{statistics} => ", hex(list));
    if area == 0 || p.scan > 2 || !(8..=16).contains(&p.depth) {
        return format!("{read}answer=4 memory=untouched");
    }
    if i.statistics.iter().any(|&c| c > 84) {
        return format!("{read}answer=3 memory=untouched");
    }
    let mut source = List { list, at: 0, failed: false };
    let (mut after, mut block) = (i.statistics, vec![0; 1024]);
    let w = walk(&mut source, p, &b.scans, &mut after, &mut block);
    if let Some(r) = w.refusal {
        return format!("{read}answer={} memory=zero", r.number);
    }
    if source.at < list.len() {
        return format!("{read}answer=13 memory=zero");
    }
    let choices = key("skip", &(w.skip as u32).to_string(), "0") + &key("rdpcm", &w.rdpcm.to_string(), "-1");
    let short = format!("write levels={}{choices}{chosen}{statistics} room={} => answer=12", levels(&block[..area]), list.len() - 1);
    format!("{read}{} stats={}\n{short}", found(&w, &block[..area]), hex(&after))
}

pub fn write(seed: u64) {
    let mut b = Bench::new();
    let mut r = Random::new(seed);
    let mut kinds: BTreeMap<(u32, &str, u32, bool), u32> = BTreeMap::new();
    let mut kept = Vec::new();
    for (payload, _, params, statistics) in inputs::examples() {
        let payload = inputs::hex(payload);
        let i = Input { payload: &payload, state: start(&payload).unwrap(), contexts: [64; CONTEXTS], statistics, params, room: 1024 };
        kept.push(record(&mut b, &i).unwrap().0);
    }
    while kept.len() < ALL {
        let mut p = inputs::params(&mut r);
        let (cs, st) = (inputs::contexts(&mut r), inputs::statistics(&mut r));
        let long = r.chance(100);
        if long {
            p.persistent = true;
            p.extended = r.chance(128);
        }
        let base = inputs::style(&mut r);
        let chosen = Style { prefix: if long { 240 } else { base.prefix }, ..base };
        let mut payload = made::one(&mut r, &p, &b.scans, &cs, &st, chosen);
        if r.chance(128) {
            inputs::damage(&mut r, &mut payload);
        }
        let Ok(s) = start(&payload) else { continue };
        let mut i = Input { payload: &payload, state: State { ..s }, contexts: cs, statistics: st, params: p, room: 1024 };
        if r.chance(20) {
            inputs::spoil(&mut r, &mut i);
        }
        let Some((text, kind)) = record(&mut b, &i) else { continue };
        let seen = kinds.entry(kind).or_default();
        if *seen < EACH[(kind.0 != 0) as usize] {
            *seen += 1;
            kept.push(text);
        }
    }
    println!("# made blocks, half of them damaged, with the answers of the Rust or the refusals of document 01");
    for text in kept {
        println!("{text}");
    }
    for (kind, n) in kinds {
        eprintln!("{kind:?} {n}");
    }
}

/// A made luma block as the program show reads it: 8 bytes, the initial values (hexadecimal), the payload.
pub fn frame(values: &str, qp: u8, log2: u32, seed: u64) {
    let b = Bench::new();
    let values = inputs::hex(values);
    let (mut contexts, mut statistics) = ([0; CONTEXTS], [0; 4]);
    bulmegart::init_contexts(&mut contexts, &mut statistics, &values, qp).unwrap();
    let style = Style { last: 170, sub_block: 150, significant: 110, greater1: 110, greater2: 150, prefix: 150, suffix: 128, longest: 9 };
    let p = bulmegart::Params { hiding: true, ..bulmegart::Params::plain(log2) };
    let payload = made::one(&mut Random::new(seed), &p, &b.scans, &contexts, &statistics, style);
    let header = [log2 as u8, 1, 0, 8, qp, 1, (payload.len() >> 8) as u8, payload.len() as u8];
    println!("{}{}{}", hex(&header), hex(&values), hex(&payload));
}
