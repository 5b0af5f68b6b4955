//! The inputs of a comparison. SHARE is a percentage of the documented run's counts.
use crate::cabac::engine;
use crate::cabac::engine::CabacDecoder;
use crate::compare::{Bench, Input};
use crate::made::{self, Style};
use crate::peer;
use crate::random::Random;
use crate::scale;
use bulmegart::{CONTEXTS, Params, Refusal, State, decode_bypass_bits, decode_bypass, byte_align, decode_bin, read_bits, rest, restart, start, decode_terminate};
use std::collections::BTreeMap;

/// A recorded block of a real stream.
pub struct Real {
    pub params: Params,
    pub state: State,
    pub payload: Vec<u8>,
    pub contexts: [u8; CONTEXTS],
    pub statistics: [u8; 4],
}

pub fn hex(text: &str) -> Vec<u8> {
    if text == "-" {
        return Vec::new();
    }
    (0..text.len() / 2).map(|i| u8::from_str_radix(&text[2 * i..2 * i + 2], 16).unwrap()).collect()
}

pub fn real_blocks(vectors: &str, files: &[&str]) -> Vec<Real> {
    let mut out = Vec::new();
    for name in files {
        let text = std::fs::read_to_string(format!("{vectors}/{name}")).expect("VECTORS has hevc.txt, rext.txt and forced.txt");
        for line in text.lines().filter(|l| l.starts_with("B ")) {
            let f: Vec<&str> = line.split(' ').collect();
            let number = |k: usize| f[k].parse::<u32>().unwrap();
            let on = |k: usize| f[k] == "1";
            let params = Params {
                log2: number(2),
                luma: on(3),
                scan: number(4),
                hiding: on(5),
                skip_allowed: on(6),
                lossless: on(7),
                persistent: on(8),
                skip_context: on(9),
                explicit_rdpcm: on(10),
                implicit_rdpcm: on(11),
                inter: on(12),
                aligning: on(13),
                extended: on(14),
                depth: number(15),
            };
            let state = State { range: number(16), offset: number(17), position: number(18) as usize, ended: false, past: 0 };
            out.push(Real {
                params,
                state,
                payload: hex(f[19]),
                contexts: hex(f[20])[..].try_into().unwrap(),
                statistics: hex(f[21])[..].try_into().unwrap(),
            });
        }
    }
    out
}

pub fn params(r: &mut Random) -> Params {
    let few = r.chance(64); // the range extensions off
    let mut on = |n: u64| r.chance(n);
    let mut p = Params {
        log2: 2,
        scan: 0,
        depth: 8,
        luma: on(128),
        hiding: on(128),
        skip_allowed: on(96),
        lossless: on(48),
        persistent: on(128) && !few,
        skip_context: on(128) && !few,
        explicit_rdpcm: on(128) && !few,
        implicit_rdpcm: on(96) && !few,
        inter: on(128),
        aligning: on(48) && !few,
        extended: on(96) && !few,
    };
    p.log2 = r.of(&[2, 2, 2, 2, 2, 2, 2, 3, 3, 3, 3, 4, 4, 5]);
    p.scan = r.of(&[0, 0, 1, 2]);
    p.depth = r.of(&[8, 8, 9, 10, 12, 14, 15, 16]);
    p
}

pub fn contexts(r: &mut Random) -> [u8; CONTEXTS] {
    match r.below(4) {
        0 => [64; CONTEXTS],
        1 => {
            let states = r.below(64) as u8;
            std::array::from_fn(|_| states.min(r.below(64) as u8) | (r.below(2) as u8) << 6)
        }
        _ => std::array::from_fn(|_| r.below(128) as u8),
    }
}

pub fn statistics(r: &mut Random) -> [u8; 4] {
    match r.below(3) {
        0 => [0; 4],
        1 => std::array::from_fn(|_| r.below(85) as u8),
        _ => std::array::from_fn(|_| r.below(24) as u8),
    }
}

/// Bytes of random bits, 1 so often of 256, with runs of one byte.
pub fn bytes(r: &mut Random, length: usize) -> Vec<u8> {
    let often = r.of(&[128, 128, 128, 192, 240, 40]);
    let mut out: Vec<u8> = (0..length).map(|_| (0..8).fold(0, |b, _| b << 1 | r.chance(often) as u8)).collect();
    if length > 2 && r.chance(64) {
        let from = r.below(length as u64) as usize;
        let to = (from + 1 + r.below(16) as usize).min(length);
        out[from..to].fill(r.of(&[0xff, 0xff, 0x00]));
    }
    out
}

const LENGTHS: [usize; 32] =
    [2, 2, 2, 3, 3, 4, 4, 5, 6, 7, 8, 9, 10, 11, 12, 13, 15, 16, 17, 20, 23, 24, 25, 31, 32, 33, 48, 63, 64, 65, 120, 400];

/// Bytes of any of the lengths above.
pub fn payload(r: &mut Random) -> Vec<u8> {
    let length = r.of(&LENGTHS);
    bytes(r, length)
}

pub fn state(r: &mut Random, payload: &[u8]) -> State {
    if r.chance(96)
        && let Ok(s) = start(payload)
    {
        return s;
    }
    let any = 256 + r.below(255) as u32;
    let range = r.of(&[256, 257, 383, 509, 510, any]);
    let any = r.below(range as u64) as u32;
    let offset = r.of(&[0, 255, range - 1, range - 2, any, any]) % range;
    let end = 8 * payload.len();
    let any = r.below(end as u64 + 1) as usize;
    let position = r.of(&[0, end, end - end.min(1), end - end.min(8), end - end.min(9), any, any]);
    State { range, offset, position, ended: false, past: if offset % 32 == 8 { 65535 - offset % 512 } else { 0 } }
}

/// One thing wrong, so that document 01 refuses at once; now and then two.
pub fn spoil(r: &mut Random, i: &mut Input) {
    for _ in 0..1 + r.below(2) {
        match r.below(14) {
            0 => i.params.log2 = r.of(&[0, 1, 6, 7, 33, u32::MAX]),
            1 => i.params.scan = r.of(&[3, 4, 255, 256, u32::MAX]),
            2 => i.params.depth = r.of(&[0, 7, 17, 18, 264, u32::MAX]),
            3 => i.room = (1usize << (2 * i.params.log2.min(5))).saturating_sub(1 + r.below(3) as usize),
            4 => i.contexts[r.below(CONTEXTS as u64) as usize] = 128 + r.below(128) as u8,
            5 => i.statistics[r.below(4) as usize] = 85 + r.below(171) as u8,
            6 => i.state.range = r.of(&[0, 1, 255, 511, 512, u32::MAX]),
            7 => i.state.offset = i.state.range.wrapping_add(r.below(3) as u32),
            8 => i.state.position = 8 * i.payload.len() + 1 + r.below(9) as usize,
            9 => i.state.position = r.of(&[usize::MAX, usize::MAX / 8, 1 << 27]),
            10 => i.state.ended = true,
            11 => i.state.past = 65536 + i.state.offset % 2,
            _ => i.payload = &i.payload[..i.payload.len().min(r.below(2) as usize)],
        }
    }
}

pub fn style(r: &mut Random) -> Style {
    Style {
        last: r.of(&[40, 128, 200, 250]),
        sub_block: r.of(&[30, 128, 220]),
        significant: r.of(&[10, 60, 128, 220]),
        greater1: r.of(&[20, 100, 200]),
        greater2: r.of(&[40, 128, 220]),
        prefix: r.of(&[60, 128, 200, 235]),
        suffix: r.of(&[128, 128, 128, 250, 256]),
        longest: u32::MAX,
    }
}

/// Good payloads cut short or with bits flipped.
pub fn damage(r: &mut Random, payload: &mut Vec<u8>) {
    if r.chance(128) {
        let kept = 2 + r.below(payload.len() as u64 - 1) as usize;
        payload.truncate(kept);
    } else {
        for _ in 0..1 + r.below(3) {
            let at = r.below(8 * payload.len() as u64) as usize;
            payload[at / 8] ^= 0x80 >> (at % 8);
        }
    }
}

fn room(r: &mut Random, p: &Params) -> usize {
    (1usize << (2 * p.log2)) + r.of(&[0, 0, 0, 1, 7])
}

fn report(name: &str, b: &mut Bench, total: &mut Totals) {
    println!("{name}: {} blocks", b.blocks - total.blocks);
    total.blocks = b.blocks;
}

#[derive(Default)]
struct Totals {
    blocks: u64,
}

/// The inputs that docs/DIFFERENCES.md names, with the rule that each must fall under.
pub fn examples() -> Vec<(&'static str, &'static str, Params, [u8; 4])> {
    let plain = Params::plain(2);
    let rice = Params { persistent: true, ..plain };
    let limited = Params { extended: true, ..rice };
    let (aligned, hiding) = (Params { aligning: true, ..plain }, Params { hiding: true, ..plain });
    vec![
        ("ca7ffe1fe1fc", "D2", plain, [0; 4]),
        ("d1fffe1fe1fc", "", plain, [0; 4]),
        ("ca7fffffffff80", "D3", plain, [0; 4]),
        ("ca7fffffff0f80", "D4", rice, [0, 0, 4, 0]),
        ("ca7fffffff0fffffffff", "D5", plain, [0; 4]),
        ("ca7ffffffe1ffffff0fc", "D6", plain, [0; 4]),
        ("ca7fffffff0ffffff87f", "D7", plain, [0; 4]),
        ("ca7ff87c", "D8", limited, [0, 0, 84, 0]),
        ("ca7ff87c", "D8", Params { depth: 10, ..limited }, [0, 0, 84, 0]),
        ("ca7ff87f1000077c", "D9", limited, [0, 0, 80, 0]),
        ("0007", "D11", aligned, [0; 4]),
        ("658ffffbffbff0", "", hiding, [0; 4]),
        ("652ffffbffcff0", "D2", hiding, [0; 4]),
    ]
}

fn listed(b: &mut Bench) {
    for (payload, rule, params, statistics) in examples() {
        let payload = hex(payload);
        let before = b.answers.clone();
        let i = Input { payload: &payload, state: start(&payload).unwrap(), contexts: [64; CONTEXTS], statistics, params, room: 16 };
        b.block(&i, true);
        let met = b.answers.iter().find(|(k, n)| before.get(k) != Some(n)).map(|(k, _)| k.1);
        assert_eq!(met, Some(rule), "{payload:02x?}");
    }
    let long = vec![0u8; (1 << 24) + 1];
    for length in [long.len() - 2, long.len() - 1, long.len()] {
        let payload = &long[..length];
        assert_eq!(start(payload).err(), (length > 1 << 24).then_some(Refusal::LongPayload));
        let state = State { range: 510, offset: 9, position: 8 * length - 20, ended: false, past: 0 };
        for params in [Params::plain(2), Params::plain(6)] {
            let i = Input { payload, state, contexts: [64; CONTEXTS], statistics: [0; 4], params, room: 16 };
            b.block(&i, false);
        }
    }
}

pub fn run(vectors: &str, share: u64, seed: u64) {
    let mut b = Bench::new();
    let mut t = Totals::default();
    let mut r = Random::new(seed);
    let count = |n: u64| n * share / 100;

    // every payload of two bytes, for parameters that differ in every option
    let sets = count(64).max(1);
    let mut starts = BTreeMap::new();
    for k in 0..sets {
        let p = params(&mut r);
        let (cs, st) = if k % 2 == 0 { ([64; CONTEXTS], [0; 4]) } else { (contexts(&mut r), statistics(&mut r)) };
        for x in 0..=65535u16 {
            let payload = x.to_be_bytes();
            let theirs = CabacDecoder::new_borrowed(&payload).unwrap();
            let s = start(&payload);
            *starts.entry(s.err().map_or(0, Refusal::number)).or_insert(0u64) += 1;
            match s {
                Ok(s) => {
                    assert_eq!((s.range, s.offset, s.position), (theirs.range, theirs.offset, engine::place(&theirs)));
                    let i = Input { payload: &payload, state: s, contexts: cs, statistics: st, params: p, room: 1 << (2 * p.log2) };
                    b.block(&i, x % 64 == 5);
                }
                Err(n) => assert!(n == Refusal::BadStart && theirs.offset >= 510), // D1
            }
        }
    }
    println!("starts on two bytes: {starts:?}");
    report("all payloads of two bytes", &mut b, &mut t);

    listed(&mut b);
    report("inputs of docs/DIFFERENCES.md, and payloads at the greatest length", &mut b, &mut t);

    // the real blocks, as they are and damaged
    let real = real_blocks(vectors, &["hevc.txt", "rext.txt", "forced.txt"]);
    for x in &real {
        let i = Input { payload: &x.payload, state: x.state, contexts: x.contexts, statistics: x.statistics, params: x.params, room: 1 << (2 * x.params.log2) };
        b.block(&i, true);
    }
    report("real blocks", &mut b, &mut t);
    for k in 0..count(2_000_000) {
        let x = &real[r.below(real.len() as u64) as usize];
        let mut payload = x.payload.clone();
        damage(&mut r, &mut payload);
        let position = x.state.position.min(8 * payload.len());
        let i = Input {
            payload: &payload,
            state: State { position, ..x.state },
            contexts: x.contexts,
            statistics: x.statistics,
            params: x.params,
            room: room(&mut r, &x.params),
        };
        b.block(&i, k % 64 == 0);
    }
    report("real blocks, damaged", &mut b, &mut t);

    // random everything
    for k in 0..count(9_000_000) {
        let p = params(&mut r);
        let length = r.of(&LENGTHS);
        let payload = bytes(&mut r, length);
        let mut i = Input {
            payload: &payload,
            state: state(&mut r, &payload),
            contexts: contexts(&mut r),
            statistics: statistics(&mut r),
            params: p,
            room: room(&mut r, &p),
        };
        if r.chance(12) {
            spoil(&mut r, &mut i);
        }
        b.block(&i, k % 64 == 0);
    }
    report("random", &mut b, &mut t);

    // good payloads, and damaged copies of each
    for k in 0..count(1_200_000) {
        let p = params(&mut r);
        let (cs, st) = (contexts(&mut r), statistics(&mut r));
        let chosen = style(&mut r);
        let good = made::one(&mut r, &p, &b.scans, &cs, &st, chosen);
        for turn in 0..3 {
            let mut payload = good.clone();
            if turn > 0 {
                damage(&mut r, &mut payload);
            }
            let Ok(s) = start(&payload) else { continue };
            let i = Input { payload: &payload, state: s, contexts: cs, statistics: st, params: p, room: room(&mut r, &p) };
            b.block(&i, k % 32 == 0);
        }
    }
    report("good payloads and damaged copies", &mut b, &mut t);

    // long prefixes: large statistics, options of every kind, payloads of ones
    for k in 0..count(3_000_000) {
        let mut p = params(&mut r);
        p.persistent = r.chance(200);
        p.extended = r.chance(128);
        p.aligning = r.chance(32);
        let st: [u8; 4] = std::array::from_fn(|_| if r.chance(200) { 40 + r.below(45) as u8 } else { r.below(85) as u8 });
        let cs = contexts(&mut r);
        let good = if r.chance(160) {
            let chosen = Style { prefix: r.of(&[225, 240, 248, 254]), suffix: r.of(&[128, 250, 256]), ..style(&mut r) };
            made::one(&mut r, &p, &b.scans, &cs, &st, chosen)
        } else {
            let mut bytes = bytes(&mut r, 40);
            bytes[6..30].fill(0xff);
            bytes
        };
        let Ok(s) = start(&good) else { continue };
        let i = Input { payload: &good, state: s, contexts: cs, statistics: st, params: p, room: room(&mut r, &p) };
        b.block(&i, k % 64 == 0);
    }
    report("large statistics and long prefixes", &mut b, &mut t);

    scale::run(vectors, &mut r, count(3_000_000));
    let steps = engine_steps(&mut r, count(4_000_000));
    println!("engine calls compared (decision, bypass, terminate, alignment, restart, raw bits): {steps:?}");
    println!("seed {seed}, blocks {}, of those past the end {}, walks that the Rust's machine decides {}", b.blocks, b.past, b.wild);
    println!("accepted blocks in which the Rust's row is not the greatest row of its own levels (D15): {}", b.moved);
    println!("lists read: {:?}; of those accepted, written again and refused by 12 in too little room: {}", b.lists, b.written);
    println!("number rule blocks");
    for ((number, rule), n) in &b.answers {
        println!("{number:6} {rule:6} {n}");
    }
}

/// The total behind a call. The Rust stays at the end, so it is asked of a payload that goes on in ones: there its place says how many it drew.
fn total(payload: &[u8], s: &State, call: impl FnOnce(&mut engine::CabacDecoder)) -> u32 {
    let mut long = payload.to_vec();
    long.resize(payload.len() + 16, 255);
    let mut dec = peer::decoder(&long, s);
    call(&mut dec);
    (s.past as usize + engine::place(&dec).saturating_sub(8 * payload.len())).min(65535) as u32
}

/// Runs of engine calls beside the Rust's, until one answers what the Rust does not have. By name and number.
fn engine_steps(r: &mut Random, runs: u64) -> BTreeMap<(&'static str, u32), u64> {
    let mut counts = BTreeMap::new();
    for _ in 0..runs / 16 {
        let length = r.of(&LENGTHS);
        let payload = bytes(r, length);
        let mut s = state(r, &payload);
        let mut dec = peer::decoder(&payload, &s);
        for _ in 0..16 {
            let (name, answer, next, past) = match r.below(7) {
                0 => {
                    let mut context = r.below(128) as u8;
                    let mut model = crate::cabac::contexts::CtxModel { state: context };
                    let past = total(&payload, &s, |d| _ = d.decode_bin(&mut crate::cabac::contexts::CtxModel { state: context }));
                    let ours = decode_bin(&payload, s, &mut context);
                    let bin = dec.decode_bin(&mut model);
                    assert_eq!(context, model.state);
                    ("decision", ours.map(|x| x.0 as u32) == Ok(bin as u32), ours.map(|x| x.1), past)
                }
                1 => {
                    let ours = decode_bypass(&payload, s);
                    let bin = dec.decode_bypass();
                    ("bypass bin", ours.map(|x| x.0 as u32) == Ok(bin as u32), ours.map(|x| x.1), total(&payload, &s, |d| _ = d.decode_bypass()))
                }
                2 => {
                    let count = r.below(33) as u32;
                    let ours = decode_bypass_bits(&payload, s, count);
                    let value = dec.decode_bypass_bits(count);
                    ("bypass", ours.map(|x| x.0) == Ok(value), ours.map(|x| x.1), total(&payload, &s, |d| _ = d.decode_bypass_bits(count)))
                }
                3 => {
                    let count = r.below(33) as u32;
                    let ours = read_bits(&payload, s, count);
                    let value = dec.read_pcm_bits(count);
                    ("raw", ours.map(|x| x.0) == Ok(value), ours.map(|x| x.1), total(&payload, &s, |d| _ = d.read_pcm_bits(count)))
                }
                4 => {
                    let ours = byte_align(&payload, s);
                    dec.byte_align();
                    assert_eq!(rest(&payload, s).unwrap(), &payload[dec.byte_pos..]);
                    ("alignment", ours.is_ok(), ours, s.past)
                }
                5 => {
                    let ours = restart(&payload, s);
                    dec.reinit_after_pcm();
                    if dec.offset >= 510 {
                        *counts.entry(("restart", 5)).or_default() += 1;
                        assert_eq!(ours, Err(Refusal::BadStart)); // D1, D10
                        break;
                    }
                    ("restart", ours.is_ok(), ours, total(&payload, &s, |d| d.reinit_after_pcm()))
                }
                _ => {
                    let ours = decode_terminate(&payload, s);
                    let bin = dec.decode_terminate();
                    if bin == 1 {
                        let ended = ours.unwrap().1; // D12
                        assert_eq!((ours.unwrap().0, ended.range, ended.offset, ended.ended), (true, dec.range, dec.offset, true));
                        assert_eq!((decode_bypass(&payload, ended), decode_bin(&payload, ended, &mut 5)), (Err(Refusal::Ended), Err(Refusal::Ended)));
                        *counts.entry(("ended", 6)).or_default() += 1;
                        break;
                    }
                    ("terminate", ours.map(|x| x.0 as u32) == Ok(bin as u32), ours.map(|x| x.1), total(&payload, &s, |d| _ = d.decode_terminate()))
                }
            };
            let next = next.unwrap_or_else(|n| panic!("{name} refused by {n}: {payload:?} {s:?}"));
            assert!(answer, "{name}: {payload:?} {s:?}");
            let theirs = (dec.range, dec.offset, engine::place(&dec), past);
            assert_eq!((next.range, next.offset, next.position, next.past), theirs, "{name}: {payload:?} {s:?}");
            *counts.entry((name, 0)).or_default() += 1;
            s = next;
        }
    }
    counts
}
