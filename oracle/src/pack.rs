//! Request (i) through the archive: the cases of VECTORS/02, field 36 of the real blocks, and lists chosen by chance, which the encoder of made.rs
//! (H.265 9.3.5's text) packs too, and whose payloads the unchanged Rust reads back.
use crate::bench::now;
use crate::cabac::engine::{self, CabacDecoder};
use crate::cases::{Asked, HELD, changes};
use crate::inputs::{contexts, hex, params, statistics, style};
use crate::made::{Chooser, Encoder, Style};
use crate::model::{Kind, Scans, Source, walk};
use crate::peer;
use crate::random::Random;
use crate::sample::hex as text;
use crate::tray::area;
use bulmegart::*;
use std::hint::black_box;

/// A payload read back: position after terminate, contexts, statistics, levels; or in words what is wrong.
fn read_back(payload: &[u8], params: Params, lent: &[u8; CONTEXTS], counts: &[u8; STATISTICS]) -> Result<(usize, [u8; CONTEXTS], [u8; STATISTICS], Vec<i32>), String> {
    let (mut contexts, mut statistics, mut levels) = (*lent, *counts, vec![0; 1 << (2 * params.log2)]);
    let state = start(payload).map_err(|r| format!("start {r:?}"))?;
    let (_, state) = residual_coding(payload, state, &mut contexts, &mut statistics, params, &mut levels).map_err(|r| format!("block {r:?}"))?;
    let (bin, last) = decode_terminate(payload, state).map_err(|r| format!("terminate {r:?}"))?;
    match (bin, last.past, last.position.div_ceil(8) == payload.len()) {
        (true, 0, true) => Ok((last.position, contexts, statistics, levels)),
        other => Err(format!("terminate, past the end, length: {other:?}")),
    }
}

/// One case: its words behind the answer's number.
pub fn case(a: &Asked) -> Result<String, (Refusal, String)> {
    let (contexts, statistics, params) = (a.contexts(), a.statistics(), a.params());
    let mut room = vec![HELD; a.number("room", longest_payload(params.log2) as i64) as usize];
    let r = pack_bins(&contexts, &statistics, params, &a.list(), &mut room);
    if room[r.unwrap_or(0)..].iter().any(|&b| b != HELD) {
        return Ok("room changed".into());
    }
    let n = r.map_err(|r| (r, String::new()))?;
    Ok(match read_back(&room[..n], params, &contexts, &statistics) {
        Ok((bits, after, _, _)) => format!("length={n} bits={bits} payload={} changes={}", text(&room[..n]), changes(&contexts, &after)),
        Err(words) => words,
    })
}

fn wide(one: &[u8]) -> Vec<u8> {
    one.iter().flat_map(|&b| if b < 240 { b as u16 } else { BYPASS_ENTRY + b as u16 - 240 }.to_le_bytes()).collect()
}

/// Field 36 of each real block, from its list.
fn real(vectors: &str) -> (u32, u32) {
    let (mut all, mut wrong) = (0, 0);
    for name in ["hevc.txt", "rext.txt", "forced.txt"] {
        let lines = std::fs::read_to_string(format!("{vectors}/{name}")).unwrap();
        let (blocks, lists) = (crate::inputs::real_blocks(vectors, &[name]), lines.lines().filter(|l| l.starts_with("B ")));
        for (x, line) in blocks.iter().zip(lists) {
            let f: Vec<&str> = line.split(' ').collect();
            let list = wide(&hex(f[LIST]));
            let mut room = vec![HELD; longest_payload(x.params.log2) + 1];
            let r = pack_bins(&x.contexts, &x.statistics, x.params, &list, &mut room);
            let wanted = (f[PACKED] != "-").then(|| hex(f[PACKED]));
            let right = match (r, wanted) {
                (Ok(n), Some(p)) => {
                    let short = pack_bins(&x.contexts, &x.statistics, x.params, &list, &mut vec![HELD; n - 1]);
                    room[..n] == p[..] && room[n..].iter().all(|&b| b == HELD) && short == Err(Refusal::ShortRoom) && read_back(&p, x.params, &x.contexts, &x.statistics).is_ok()
                }
                (Err(Refusal::BadList), None) => room.iter().all(|&b| b == HELD),
                _ => false,
            };
            all += 1;
            if !right {
                println!("DIFFERENCE: {name} {line}");
                wrong += 1;
            }
        }
    }
    (all, wrong)
}

/// Which field of a B line, from 0, is its list.
const LIST: usize = 22;
/// Which is the payload that the list is packed to.
const PACKED: usize = 35;

/// A chooser that keeps the entries of what it chooses.
struct Listing<'a> {
    chooser: Chooser<'a>,
    list: Vec<u8>,
}

impl Listing<'_> {
    fn keep(&mut self, entry: u16) {
        self.list.extend(entry.to_le_bytes());
    }
}

impl Source for Listing<'_> {
    fn decision(&mut self, number: usize) -> u32 {
        let bin = self.chooser.decision(number);
        self.keep(2 * number as u16 + bin as u16);
        bin
    }

    fn bypass(&mut self, kind: Kind) -> u32 {
        let bin = self.chooser.bypass(kind);
        self.keep(BYPASS_ENTRY + bin as u16);
        bin
    }

    fn align(&mut self) -> bool {
        self.keep(ALIGNMENT_ENTRY);
        self.chooser.align()
    }
}

/// Lists chosen by chance: how many, how many the syntax reads, their bytes packed, and how many are wrong.
fn chosen(count: u64, seed: u64) -> (u64, u64, u64) {
    let (scans, mut r) = (Scans::new(), Random::new(seed));
    let mut set = peer::empty_set();
    let (mut read, mut bytes, mut wrong) = (0, 0, 0);
    let mut levels = vec![0; 1024];
    for k in 0..count {
        let (p, cs, st) = (params(&mut r), contexts(&mut r), statistics(&mut r));
        let chosen = style(&mut r);
        let mut after = st;
        let mut l = Listing { chooser: Chooser { encoder: Encoder::new(), contexts: cs, random: &mut r, style: chosen, ones: 0 }, list: Vec::new() };
        let w = walk(&mut l, &p, &scans, &mut after, &mut levels);
        let (list, cs_after, theirs) = (l.list, l.chooser.contexts, l.chooser.encoder.finish());
        let mut room = vec![HELD; theirs.len() + 2];
        let ours = pack_bins(&cs, &st, p, &list, &mut room);
        let right = if w.refusal.is_some() {
            ours == Err(Refusal::BadList) && room.iter().all(|&b| b == HELD)
        } else {
            read += 1;
            bytes += theirs.len() as u64;
            let area = 1 << (2 * p.log2);
            let mut peers = vec![0; area];
            peer::lend(&mut set, &cs, &st);
            let mut dec = CabacDecoder::new_borrowed(&theirs).unwrap();
            let found = peer::block(&mut dec, &mut set, &p, &mut peers);
            let (mut peer_cs, mut peer_st) = (cs, st);
            peer::give_back(&mut set, &mut peer_cs, &mut peer_st);
            ours == Ok(theirs.len())
                && room[..theirs.len()] == theirs[..]
                && room[theirs.len()..] == [HELD; 2]
                && (peers[..] == levels[..area] && found.skip == w.skip && found.greatest == w.greatest && peer_cs == cs_after && peer_st == after)
                && engine::place(&dec).div_ceil(8) == theirs.len()
                && dec.decode_terminate() == 1
        };
        if !right {
            println!("DIFFERENCE: list {k} of seed {seed}: {p:?} {ours:?} list {}", text(&list));
            wrong += 1;
        }
    }
    println!("lists by chance: {count}, {read} of them read and packed to {bytes} bytes, as the encoder of 9.3.5 packs them and the Rust reads them; {wrong} wrong");
    (read, bytes, wrong)
}

/// The lists of a tray's blocks, with the payload that one encoder makes of all of them and what the walks found.
struct Trayed {
    params: Vec<Params>,
    contexts: [u8; CONTEXTS],
    statistics: [u8; STATISTICS],
    list: Vec<u8>,
    payload: Vec<u8>,
    levels: Vec<i32>,
    contexts_after: [u8; CONTEXTS],
    statistics_after: [u8; STATISTICS],
    /// The first block whose list the syntax refuses.
    refused: Option<usize>,
}

/// A tray by chance: a few blocks of any kind, now and then very many small ones.
fn tray_chosen(r: &mut Random, scans: &Scans) -> Trayed {
    let many = r.chance(2);
    let count = if many { r.below(257) } else { r.below(7) };
    let mut params: Vec<Params> = (0..count).map(|_| params(r)).collect();
    if many {
        params.iter_mut().for_each(|p| p.log2 = 2);
    }
    let (contexts, statistics, chosen) = (contexts(r), statistics(r), style(r));
    let (mut levels, mut after, mut refused) = (Vec::new(), statistics, None);
    let mut l = Listing { chooser: Chooser { encoder: Encoder::new(), contexts, random: r, style: chosen, ones: 0 }, list: Vec::new() };
    for (k, p) in params.iter().enumerate() {
        let mut block = vec![0; 1024];
        if walk(&mut l, p, scans, &mut after, &mut block).refusal.is_some() {
            refused = refused.or(Some(k));
        }
        levels.extend(&block[..area(p)]);
    }
    let (list, contexts_after, payload) = (l.list, l.chooser.contexts, l.chooser.encoder.finish());
    Trayed { params, contexts, statistics, list, payload, levels, contexts_after, statistics_after: after, refused }
}

fn records_of(params: &[Params]) -> Vec<Record> {
    params.iter().map(|&p| p.into()).collect()
}

/// Whether a tray is packed as its walks say, into a room that is longer, as long, and shorter, and read back; damaged ones are 13.
fn tray_right(r: &mut Random, t: &Trayed) -> bool {
    let (records, length) = (records_of(&t.params), t.payload.len());
    let pack = |list: &[u8], room: &mut [u8]| pack_tray(&t.contexts, &t.statistics, &records, list, room);
    let mut room = vec![HELD; length + 2];
    let ours = pack(&t.list, &mut room);
    if let Some(k) = t.refused {
        return ours == PackedTray { done: k, length: Err(Refusal::BadList) } && room.iter().all(|&b| b == HELD);
    }
    let mut just = vec![HELD; length];
    let mut short = vec![HELD; length - 1];
    let all = records.len();
    let left = [&t.list[..], &[r.below(256) as u8]].concat();
    let cut = t.list.len().saturating_sub(1 + r.below(2) as usize);
    let (mut levels, mut found) = (vec![0; t.levels.len()], vec![TrayFound { skip: 0, rdpcm: 0, column: 0, row: 0, greatest: 0 }; all]);
    let (mut contexts, mut statistics) = (t.contexts, t.statistics);
    let tray = read_tray(&t.payload, start(&t.payload).unwrap(), &mut contexts, &mut statistics, &records, &mut levels, &mut found);
    let last = decode_terminate(&t.payload, tray.state).unwrap();
    ours == PackedTray { done: all, length: Ok(length) }
        && room[..length] == t.payload[..]
        && room[length..] == [HELD; 2]
        && pack(&t.list, &mut just).length == Ok(length)
        && just == t.payload
        && pack(&t.list, &mut short) == PackedTray { done: all, length: Err(Refusal::ShortRoom) }
        && pack(&left, &mut room) == PackedTray { done: all, length: Err(Refusal::BadList) }
        && (t.list.is_empty() || pack(&t.list[..cut], &mut room) == PackedTray { done: all - 1, length: Err(Refusal::BadList) })
        && (tray.refusal, tray.done) == (None, all)
        && (levels == t.levels && contexts == t.contexts_after && statistics == t.statistics_after)
        && (last.0, last.1.past, last.1.position.div_ceil(8)) == (true, 0, length)
}

/// Trays by chance: how many are wrong.
fn trays(count: u64, seed: u64) -> u64 {
    let (scans, mut r) = (Scans::new(), Random::new(seed));
    let (mut read, mut blocks, mut bytes, mut wrong) = (0, 0, 0, 0);
    for k in 0..count {
        let t = tray_chosen(&mut r, &scans);
        if t.refused.is_none() {
            read += 1;
            blocks += t.params.len();
            bytes += t.payload.len();
        }
        if !tray_right(&mut r, &t) {
            println!("DIFFERENCE: tray {k} of seed {seed}: {:?} list {}", t.params, text(&t.list));
            wrong += 1;
        }
    }
    println!("trays by chance: {count}, {read} of them read, of {blocks} blocks, and packed to {bytes} bytes, as one encoder of 9.3.5 packs them; {wrong} wrong");
    wrong
}

/// A list packed by the encoder of 9.3.5, with the contexts behind it.
pub fn encoded<const N: usize>(contexts: &[u8; N], list: &[u8]) -> (Vec<u8>, [u8; N]) {
    let (mut encoder, mut after) = (Encoder::new(), *contexts);
    encoder.entries(&mut after, list);
    (encoder.finish(), after)
}

/// The place behind terminate: that of the last bit that is 1.
fn bits(payload: &[u8]) -> usize {
    8 * payload.len() - payload.last().unwrap().trailing_zeros() as usize
}

fn payload_text(payload: &[u8], before: &[u8], after: &[u8]) -> String {
    format!("length={} bits={} payload={} changes={}", payload.len(), bits(payload), text(payload), changes(before, after))
}

fn record_text(p: &Params) -> String {
    let flags = [p.hiding, p.skip_allowed, p.lossless, p.persistent, p.skip_context, p.explicit_rdpcm, p.implicit_rdpcm, p.inter, p.aligning, p.extended];
    let flags: Vec<String> = flags.iter().map(|&f| (f as u32).to_string()).collect();
    format!("{},{},{},{},{}", p.log2, p.luma as u32, p.scan, flags.join(","), p.depth)
}

/// Records of packscale and packtray for crates/cases/stdin: the recorded scales, recorded lists of true streams as trays, and trays by chance.
pub fn sample(vectors: &str, seed: u64) {
    println!("# recorded scales: each list packed as the encoder of 9.3.5 packs it, and 12");
    for line in std::fs::read_to_string(format!("{vectors}/cross.txt")).unwrap().lines().filter(|l| l.starts_with("X ")) {
        let f: Vec<&str> = line.split(' ').collect();
        let contexts: [u8; CONTEXTS] = hex(f[7]).try_into().unwrap();
        let (payload, after) = encoded(&contexts, &hex(f[8]));
        let asked = format!("packscale component={} list={} ctx={}", f[2], f[8], f[7]);
        println!("{asked} => answer=0 {}", payload_text(&payload, &contexts, &after));
        println!("{asked} room={} => answer=12", payload.len() - 1);
    }
    println!("# lists of three to six blocks of a stream, one behind the other, as a tray; a byte of room less; and without their last entry");
    let blocks: Vec<Both> = ["hevc.txt", "rext.txt"].iter().flat_map(|name| recorded(vectors, name)).collect();
    // a tray's statistics are carried on: blocks that do not look at them
    let blocks: Vec<&Both> = blocks.iter().filter(|x| !x.params.persistent && x.list.len() < 400).collect();
    let mut r = Random::new(seed);
    for _ in 0..40 {
        let from = r.below(blocks.len() as u64 - 6) as usize;
        let few = &blocks[from..from + 3 + r.below(4) as usize];
        let list: Vec<u8> = few.iter().flat_map(|x| x.list.clone()).collect();
        let contexts = few[0].contexts;
        let (payload, after) = encoded(&contexts, &list);
        let records: Vec<String> = few.iter().map(|x| record_text(&x.params)).collect();
        if few.iter().map(|x| area(&x.params)).sum::<usize>() > 4864 {
            continue;
        }
        let asked = |list: &[u8]| format!("packtray records={} list={} ctx={}", records.join(";"), text(list), text(&contexts));
        let all = few.len();
        println!("{} => answer=0 done={all} {} stats=00000000", asked(&list), payload_text(&payload, &contexts, &after));
        println!("{} room={} => answer=12 done={all}", asked(&list), payload.len() - 1);
        println!("{} => answer=13 done={}", asked(&list[..list.len() - 2]), all - 1);
    }
    println!("# trays by chance, with statistics carried on");
    let scans = Scans::new();
    let mut kept = 0;
    while kept < 40 {
        let t = tray_chosen(&mut r, &scans);
        if t.levels.len() > 4864 || t.list.len() > 1500 || t.params.is_empty() {
            continue;
        }
        kept += 1;
        let records: Vec<String> = t.params.iter().map(record_text).collect();
        print!("packtray records={} list={} ctx={} stats={} => ", records.join(";"), text(&t.list), text(&t.contexts), text(&t.statistics));
        match t.refused {
            Some(k) => println!("answer=13 done={k}"),
            None => println!("answer=0 done={} {} stats={}", t.params.len(), payload_text(&t.payload, &t.contexts, &t.contexts_after), text(&t.statistics_after)),
        }
    }
}

pub fn run(vectors: &str, count: u64, seed: u64) {
    let (all, wrong) = real(vectors);
    println!("field 36: {all} real lists, {wrong} wrong");
    let (_, _, also) = chosen(count, seed);
    let trayed = trays(count / 4, seed);
    if wrong > 0 || also > 0 || trayed > 0 {
        std::process::exit(1);
    }
}

/// A block's list beside the payload that it is packed to.
struct Both {
    params: Params,
    contexts: [u8; CONTEXTS],
    statistics: [u8; STATISTICS],
    list: Vec<u8>,
    payload: Vec<u8>,
}

/// Lists of one style, each with contexts of its own.
fn made(seed: u64, count: usize, log2: u32, style: Style) -> Vec<Both> {
    let (scans, mut r, mut levels) = (Scans::new(), Random::new(seed), vec![0; 1024]);
    let mut one = |k: usize| {
        let p = Params { luma: k % 3 > 0, hiding: true, ..Params::plain(log2) };
        let (cs, st) = ([init(154, 26); CONTEXTS], [0; STATISTICS]);
        let mut l = Listing { chooser: Chooser { encoder: Encoder::new(), contexts: cs, random: &mut r, style, ones: 0 }, list: Vec::new() };
        assert!(walk(&mut l, &p, &scans, &mut { st }, &mut levels).refusal.is_none());
        Both { params: p, contexts: cs, statistics: st, list: l.list, payload: l.chooser.encoder.finish() }
    };
    (0..count).map(&mut one).collect()
}

/// The real blocks whose lists the syntax reads.
fn recorded(vectors: &str, name: &str) -> Vec<Both> {
    let lines = std::fs::read_to_string(format!("{vectors}/{name}")).unwrap();
    let blocks = crate::inputs::real_blocks(vectors, &[name]);
    let fields = lines.lines().filter(|l| l.starts_with("B ")).map(|l| l.split(' ').collect::<Vec<_>>());
    let both = blocks.into_iter().zip(fields).filter(|(_, f)| f[PACKED] != "-");
    both.map(|(x, f)| Both { params: x.params, contexts: x.contexts, statistics: x.statistics, list: wide(&hex(f[LIST])), payload: hex(f[PACKED]) }).collect()
}

#[inline(never)]
fn pack_all(blocks: &[Both], room: &mut [u8]) -> usize {
    blocks.iter().map(|x| pack_bins(&x.contexts, &x.statistics, x.params, &x.list, &mut room[..longest_payload(x.params.log2)]).unwrap()).sum()
}

#[inline(never)]
fn read_all(blocks: &[Both], levels: &mut [i32]) -> usize {
    let read = |x: &Both| residual_coding(&x.payload, start(&x.payload).unwrap(), &mut { x.contexts }, &mut { x.statistics }, x.params, levels).unwrap().1.position;
    blocks.iter().map(read).sum()
}

/// Blocks and bytes a second, packed and read, on the same blocks in one program.
pub fn bench(vectors: &str, rounds: u32) {
    let lone = Style { last: 90, sub_block: 60, significant: 50, greater1: 50, greater2: 60, prefix: 100, suffix: 128, longest: 11 };
    let middle = Style { last: 200, sub_block: 150, significant: 100, greater1: 90, greater2: 100, prefix: 120, ..lone };
    let dense = Style { last: 240, sub_block: 240, significant: 190, greater1: 170, greater2: 150, prefix: 150, ..lone };
    let rows = [
        ("4x4, one level or two", made(10, 2000, 2, lone)),
        ("4x4 dense", made(12, 2000, 2, dense)),
        ("8x8", made(13, 1500, 3, middle)),
        ("16x16", made(14, 500, 4, middle)),
        ("32x32 dense", made(16, 60, 5, dense)),
        ("real blocks, hevc.txt", recorded(vectors, "hevc.txt")),
        ("real blocks, rext.txt", recorded(vectors, "rext.txt")),
    ];
    let (mut room, mut levels) = (vec![0; longest_payload(5)], vec![0; 1024]);
    println!("| blocks | bytes a block | entries a block | read, blocks/s | packed, blocks/s | packed, bytes/s | packed to read |");
    println!("|---|---|---|---|---|---|---|");
    for (name, blocks) in &rows {
        let bytes: usize = blocks.iter().map(|x| x.payload.len()).sum();
        let entries: usize = blocks.iter().map(|x| x.list.len() / 2).sum();
        assert_eq!(pack_all(blocks, &mut room), bytes);
        let mut best = [i64::MAX; 2];
        for _ in 0..rounds {
            let a = now();
            black_box(read_all(black_box(blocks), &mut levels));
            let b = now();
            black_box(pack_all(black_box(blocks), &mut room));
            let c = now();
            best = [best[0].min(b - a), best[1].min(c - b)];
        }
        let n = blocks.len() as f64;
        let speed = |count: f64, t: i64| count * 1e9 / t as f64;
        println!(
            "| {name} | {:.1} | {:.1} | {:.0} | {:.0} | {:.0} | {:.2} |",
            bytes as f64 / n,
            entries as f64 / n,
            speed(n, best[0]),
            speed(n, best[1]),
            speed(bytes as f64, best[1]),
            best[0] as f64 / best[1] as f64
        );
    }
}
