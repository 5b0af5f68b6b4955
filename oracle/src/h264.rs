//! Request (xiii)'s block, written from its text, beside the archive's four functions.
//!
//! From a payload the bins are read by the Rust's own engine and by the model's, which must agree; past the end the Rust is asked again on the payload with
//! ones behind it, since its place stays at the end.
use crate::cabac::contexts::CtxModel;
use crate::cabac::engine;
use crate::inputs::{self, hex};
use crate::model::{Engine, Kind, Source};
use crate::random::Random;
use bulmegart::h264::*;
use bulmegart::raw::{RawState, RawWriteAnswer};
use bulmegart::{ALIGNMENT_ENTRY, BYPASS_ENTRY};
use std::collections::BTreeMap;

/// What a place and a byte that are lent hold before a call.
const MARK: i32 = 0x5a5a_5a5a;
const HELD: u8 = 0xa5;

/// The next bin: with the context of a number, or a bypass bin.
#[derive(Clone, Copy, PartialEq, Eq, Debug)]
enum Bin {
    Context(usize),
    Bypass,
}
use Bin::{Bypass, Context};

/// "A significance flag, and after each 1 a last flag, for list places 0 to 14, with the place as context increment; place 15 is inferred if none was last.
/// Then, from the highest, magnitude less 1 with a unary prefix of up to 14 context bins and order-0 Exp-Golomb bypass suffix, then a bypass sign."
/// Err: 8, or 13 where there is no bin.
fn block(mut bin: impl FnMut(Bin) -> Option<bool>) -> Result<[i32; PLACES], u32> {
    let mut bin = |which| bin(which).ok_or(13u32);
    let mut significant = Vec::new();
    let mut ended = false;
    for place in 0..15 {
        if bin(Context(place))? {
            significant.push(place);
            if bin(Context(15 + place))? {
                ended = true;
                break;
            }
        }
    }
    if !ended {
        significant.push(15);
    }
    let mut levels = [0; PLACES];
    let (mut ones, mut above) = (0usize, 0usize);
    for &place in significant.iter().rev() {
        // "First-bin increment: 0 if an earlier magnitude exceeded 1, else the lesser of 4 and 1 + the ones so far; later bins: 5 + the lesser of 4 and the
        // number above 1."
        let first = if above > 0 { 0 } else { 4usize.min(1 + ones) };
        let later = 5 + 4usize.min(above);
        let mut less_one: i64 = 0;
        while less_one < 14 && bin(Context(30 + if less_one == 0 { first } else { later }))? {
            less_one += 1;
        }
        if less_one == 14 {
            let mut prefix = 0;
            while bin(Bypass)? {
                prefix += 1;
                // "A suffix prefix of 16 ones answers 8 at once, any other level outside the range once its sign is read."
                if prefix == 16 {
                    return Err(8);
                }
            }
            let mut digits = 0;
            for _ in 0..prefix {
                digits = 2 * digits + bin(Bypass)? as i64;
            }
            less_one += (1 << prefix) - 1 + digits;
        }
        let magnitude = less_one + 1;
        let level = if bin(Bypass)? { -magnitude } else { magnitude };
        if !(-32768..=32767).contains(&level) {
            return Err(8);
        }
        if magnitude == 1 { ones += 1 } else { above += 1 }
        levels[place] = level as i32;
    }
    Ok(levels)
}

/// The block of a list, or the number of its refusal.
fn read(list: &[u8]) -> Result<[i32; PLACES], u32> {
    let mut left = list;
    let found = block(|which| {
        let tag = match which {
            Context(number) => 2 * number as u16,
            Bypass => 260,
        };
        let [low, high, rest @ ..] = left else { return None };
        let entry = u16::from_le_bytes([*low, *high]);
        left = rest;
        (entry & !1 == tag).then_some(entry & 1 == 1)
    })?;
    if left.is_empty() { Ok(found) } else { Err(13) }
}

/// The list of a block, or the number of its refusal: 9, 8.
fn written(levels: &[i32]) -> Result<Vec<u8>, u32> {
    let levels = &levels[..PLACES];
    let Some(last) = levels.iter().rposition(|&v| v != 0) else { return Err(9) };
    if levels.iter().any(|v| !(-32768..=32767).contains(v)) {
        return Err(8);
    }
    let mut entries: Vec<u16> = Vec::new();
    for (place, &level) in levels.iter().enumerate().take(15usize.min(last + 1)) {
        entries.push(2 * place as u16 + (level != 0) as u16);
        if level != 0 {
            entries.push(2 * (15 + place as u16) + (place == last) as u16);
        }
    }
    let (mut ones, mut above) = (0u16, 0u16);
    for &level in levels[..=last].iter().rev().filter(|&&v| v != 0) {
        let less_one = level.unsigned_abs() - 1;
        let first = 30 + if above > 0 { 0 } else { 4u16.min(1 + ones) };
        let later = 35 + 4u16.min(above);
        let number = |k: u32| if k == 0 { first } else { later };
        for k in 0..less_one.min(14) {
            entries.push(2 * number(k) + 1);
        }
        if less_one < 14 {
            entries.push(2 * number(less_one));
        } else {
            // one more than the rest has as many digits behind its leading 1 as the prefix has ones
            let rest = less_one - 14 + 1;
            let digits = 31 - rest.leading_zeros();
            entries.extend((0..digits).map(|_| 261));
            entries.push(260);
            entries.extend((0..digits).rev().map(|k| 260 + (rest >> k & 1) as u16));
        }
        entries.push(260 + (level < 0) as u16);
        if less_one == 0 { ones += 1 } else { above += 1 }
    }
    Ok(entries.into_iter().flat_map(u16::to_le_bytes).collect())
}

fn greatest(levels: &[i32]) -> u32 {
    levels.iter().map(|v| v.unsigned_abs()).max().unwrap_or(0)
}

#[derive(Clone)]
struct Call<'a> {
    payload: &'a [u8],
    state: RawState,
    contexts: [u8; CONTEXTS],
    places: usize,
}

impl Call<'_> {
    /// 1, 2, 4, 3, 6.
    fn refusal(&self) -> u32 {
        let s = &self.state;
        if self.payload.len() < 2 {
            1
        } else if self.payload.len() > 1 << 24 {
            2
        } else if s.ended > 1 || self.places < PLACES {
            4
        } else if s.position > 8 * self.payload.len()
            || s.past > 65535
            || s.ended == 0 && !((256..=510).contains(&s.range) && s.offset < s.range)
            || self.contexts.iter().any(|&c| c > 127)
        {
            3
        } else if s.ended == 1 {
            6
        } else {
            0
        }
    }
}

fn differ(what: &str, c: &Call, detail: String) -> ! {
    println!("DIFFERENCE: H.264, {what}");
    println!("payload {:02x?} places {}\n{:?}\ncontexts {:?}\n{detail}", &c.payload[..c.payload.len().min(64)], c.places, c.state, c.contexts);
    std::process::exit(1);
}

/// A reading by some engine: what became of it, range, offset, place, contexts.
type Reading = (Result<[i32; PLACES], u32>, u32, u32, usize, [u8; CONTEXTS]);

/// By the Rust's engine.
fn theirs(payload: &[u8], c: &Call) -> Reading {
    let mut dec = engine::at(payload, c.state.range, c.state.offset, c.state.position);
    let mut models = c.contexts.map(|state| CtxModel { state });
    let found = block(|which| {
        Some(match which {
            Context(number) => dec.decode_bin(&mut models[number]) == 1,
            Bypass => dec.decode_bypass() == 1,
        })
    });
    (found, dec.range, dec.offset, engine::place(&dec), models.map(|m| m.state))
}

/// Counts by function and number.
#[derive(Default)]
struct Blocks {
    calls: BTreeMap<(&'static str, u32), u64>,
    past: u64,
    levels: u64,
    /// Payloads and their bytes.
    packed: (u64, u64),
}

impl Blocks {
    fn count(&mut self, name: &'static str, number: u32) {
        *self.calls.entry((name, number)).or_default() += 1;
    }

    /// One call by all; answers the archive's answer, and what it left in contexts and places.
    fn payload(&mut self, c: &Call) -> (RawH264BlockAnswer, [u8; CONTEXTS], Vec<i32>) {
        let (mut contexts, mut lent) = (c.contexts, vec![MARK; c.places]);
        // Sound: each pointer is to as many elements as the archive takes it for.
        let ours = unsafe {
            bulmegart_h264_residual_block(c.payload.as_ptr(), c.payload.len(), c.state, contexts.as_mut_ptr(), lent.as_mut_ptr(), lent.len())
        };
        let number = c.refusal();
        if number != 0 {
            self.count("from a payload", number);
            if ours != (RawH264BlockAnswer { number, greatest: 0, state: c.state }) || contexts != c.contexts || lent.iter().any(|&v| v != MARK) {
                differ("refused", c, format!("ours {ours:?} {lent:?}, wanted {number}, contexts kept {}", contexts == c.contexts));
            }
            return (ours, contexts, lent);
        }
        let end = 8 * c.payload.len();
        let s = &c.state;
        let mut all = [0; bulmegart::CONTEXTS];
        all[..CONTEXTS].copy_from_slice(&c.contexts);
        let mut e = Engine { payload: c.payload, range: s.range, offset: s.offset, at: s.position, contexts: all, list: Vec::new() };
        let found = block(|which| {
            Some(match which {
                Context(number) => e.decision(number) == 1,
                Bypass => e.bypass(Kind::Suffix) == 1,
            })
        });
        let after: [u8; CONTEXTS] = e.contexts[..CONTEXTS].try_into().unwrap();
        let modelled = (found, e.range, e.offset, e.at.min(end), after);
        if theirs(c.payload, c) != modelled {
            differ("the Rust and the model", c, format!("{:?}\n{modelled:?}", theirs(c.payload, c)));
        }
        if e.at > end {
            self.past += 1;
            let mut long = c.payload.to_vec();
            long.resize(c.payload.len() + 300, 255);
            if theirs(&long, c) != (found, e.range, e.offset, e.at, after) {
                differ("bits past the end", c, format!("{:?}\n{modelled:?} {}", theirs(&long, c), e.at));
            }
        }
        self.count("from a payload", found.err().unwrap_or(0));
        let past = (s.past + e.at.saturating_sub(end) as u32).min(65535);
        let (answer, left) = match found {
            Ok(levels) => {
                self.levels += levels.iter().filter(|&&v| v != 0).count() as u64;
                let state = RawState { range: e.range, offset: e.offset, position: e.at.min(end), ended: 0, past };
                (RawH264BlockAnswer { number: 0, greatest: greatest(&levels), state }, after)
            }
            Err(number) => (RawH264BlockAnswer { number, greatest: 0, state: c.state }, c.contexts),
        };
        let wanted = found.unwrap_or([0; PLACES]);
        if ours != answer || contexts != left || lent[..PLACES] != wanted || lent[PLACES..].iter().any(|&v| v != MARK) {
            differ("read", c, format!("ours {ours:?} {lent:?} {contexts:?}\nwanted {answer:?} {wanted:?} {left:?}"));
        }
        if self.list(&e.list, PLACES) != found {
            differ("its own bins as a list", c, format!("{:?}", e.list));
        }
        (ours, contexts, lent)
    }

    /// A list by ours and by the text; one that is read is what the writer makes of its block.
    fn list(&mut self, list: &[u8], places: usize) -> Result<[i32; PLACES], u32> {
        let mut lent = vec![MARK; places];
        // Sound, as below: the pointer is to as many elements as the length says.
        let ours = unsafe { bulmegart_h264_read_bins(list.as_ptr(), list.len(), lent.as_mut_ptr(), places) };
        let wanted = if places < PLACES { Err(4) } else { read(list) };
        self.count("from a list", wanted.err().unwrap_or(0));
        let answer = RawH264ListAnswer { number: wanted.err().unwrap_or(0), greatest: wanted.map_or(0, |l| greatest(&l)) };
        let mut left = vec![MARK; places];
        if places >= PLACES {
            left[..PLACES].copy_from_slice(&wanted.unwrap_or([0; PLACES]));
        }
        if ours != answer || lent != left || wanted.is_ok_and(|l| written(&l).as_deref() != Ok(list)) {
            println!("DIFFERENCE: H.264 from a list {list:02x?}, places {places}: ours {ours:?} {lent:?}, wanted {wanted:?}");
            std::process::exit(1);
        }
        if let Ok(levels) = wanted {
            for less in 0..2 {
                self.write(&levels, list.len() - less);
            }
        }
        wanted
    }

    /// A block written in a room, by ours and by the text.
    /// A list packed from any contexts, as the encoder of 9.3.5 packs it, into a room around that length; the block is read back.
    fn pack(&mut self, r: &mut Random, list: &[u8]) {
        let mut contexts: [u8; CONTEXTS] = inputs::contexts(r)[..CONTEXTS].try_into().unwrap();
        if r.chance(8) {
            contexts[r.below(CONTEXTS as u64) as usize] = 128 + r.below(128) as u8;
        }
        let bad = contexts.iter().any(|&c| c > 127);
        let read = read(list);
        let (payload, after) = if bad || read.is_err() { (Vec::new(), contexts) } else { crate::pack::encoded(&contexts, list) };
        let room = (payload.len() + 1).saturating_sub(r.below(3) as usize);
        let mut lent = vec![HELD; room + 2];
        let ours = pack_bins(&contexts, list, &mut lent[..room]);
        let number = if bad { 3 } else if read.is_err() { 13 } else { 12 * (payload.len() > room) as u32 };
        self.count("packed", number);
        let left = if number == 0 { payload.len() } else { 0 };
        let back = || {
            let (mut handed, mut levels) = (contexts, [0; PLACES]);
            let (_, state) = residual_block(&payload, bulmegart::start(&payload).unwrap(), &mut handed, &mut levels).unwrap();
            let (bin, last) = bulmegart::decode_terminate(&payload, state).unwrap();
            handed == after && Ok(levels) == read && bin && last.past == 0 && last.position.div_ceil(8) == payload.len()
        };
        if ours.map_err(|r| r.number()) != if number == 0 { Ok(left) } else { Err(number) }
            || lent[..left] != payload[..left]
            || lent[left..].iter().any(|&b| b != HELD)
            || (number == 0 && !back())
        {
            println!("DIFFERENCE: H.264 packed {list:02x?} from {contexts:02x?}, room {room}: ours {ours:?} {lent:02x?}, wanted {number} {payload:02x?}");
            std::process::exit(1);
        }
        self.packed.0 += (number == 0) as u64;
        self.packed.1 += left as u64;
    }

    fn write(&mut self, levels: &[i32], room: usize) {
        let mut lent = vec![HELD; room + 2];
        let ours = unsafe { bulmegart_h264_write_bins(levels.as_ptr(), levels.len(), lent.as_mut_ptr(), room) };
        let wanted = if levels.len() < PLACES { Err(4) } else { written(levels) };
        let wanted = wanted.and_then(|list| if list.len() > room { Err(12) } else { Ok(list) });
        self.count("written", wanted.as_ref().err().copied().unwrap_or(0));
        let list = wanted.clone().unwrap_or_default();
        let answer = RawWriteAnswer { number: wanted.err().unwrap_or(0), length: list.len() };
        if ours != answer || lent[..list.len()] != list || lent[list.len()..].iter().any(|&b| b != HELD) {
            println!("DIFFERENCE: H.264 written {levels:?}, room {room}: ours {ours:?} {lent:02x?}, wanted {answer:?} {list:02x?}");
            std::process::exit(1);
        }
    }

    /// Contexts from pairs: clip(1, 126, floor(m·q/16) + n), packed.
    fn pairs(&mut self, pairs: &[i32], qp: u8) -> Option<[u8; CONTEXTS]> {
        let mut contexts = [HELD; CONTEXTS];
        let ours = unsafe { bulmegart_h264_init_pairs(contexts.as_mut_ptr(), pairs.as_ptr(), pairs.len(), qp) };
        let fine = pairs.len() == 2 * CONTEXTS && pairs.iter().all(|v| (-128..=127).contains(v));
        let number = if fine { 0 } else { 4 };
        self.count("from pairs", number);
        let mut wanted = [HELD; CONTEXTS];
        if fine {
            for (context, pair) in wanted.iter_mut().zip(pairs.chunks(2)) {
                let p = ((pair[0] * 51i32.min(qp as i32)).div_euclid(16) + pair[1]).clamp(1, 126);
                *context = if p >= 64 { p as u8 } else { 63 - p as u8 };
            }
        }
        if ours != number || contexts != wanted {
            println!("DIFFERENCE: H.264 from pairs {pairs:?} at {qp}: ours {ours} {contexts:?}, wanted {number} {wanted:?}");
            std::process::exit(1);
        }
        fine.then_some(contexts)
    }
}

/// Levels `place:level` over so many places.
fn placed(text: &str, places: usize) -> Vec<i32> {
    let mut levels = vec![0; places];
    for level in text.split(',').filter(|&l| l != "-") {
        let (place, value) = level.split_once(':').unwrap();
        levels[place.parse::<usize>().unwrap()] = value.parse().unwrap();
    }
    levels
}

fn changed(before: &[u8; CONTEXTS], text: &str) -> [u8; CONTEXTS] {
    let mut after = *before;
    for change in text.split(',').filter(|&c| c != "-") {
        let (number, byte) = change.split_once(':').unwrap();
        after[number.parse::<usize>().unwrap()] = u8::from_str_radix(byte, 16).unwrap();
    }
    after
}

fn pairs_of(text: &str) -> Vec<i32> {
    text.split([',', ':']).filter(|v| !v.is_empty() && *v != "-").map(|v| v.parse().unwrap()).collect()
}

/// The recorded blocks, read from payload and list and written again; and the recorded contexts from pairs.
fn recorded(vectors: &str, b: &mut Blocks) -> (usize, usize) {
    let (mut blocks, mut tables) = (0, 0);
    let text = std::fs::read_to_string(format!("{vectors}/h264.txt")).expect("VECTORS has h264.txt");
    for line in text.lines().filter(|l| l.starts_with("H ")) {
        let f: Vec<&str> = line.split(' ').collect();
        let number = |k: usize| f[k].parse::<u32>().unwrap();
        let state = |k: usize| RawState { range: number(k), offset: number(k + 1), position: number(k + 2) as usize, ended: 0, past: 0 };
        let (payload, list) = (hex(f[8]), hex(f[10]));
        let c = Call { payload: &payload, state: state(5), contexts: hex(f[9]).try_into().unwrap(), places: PLACES + 3 };
        let levels = placed(f[12], PLACES);
        let (answer, contexts, lent) = b.payload(&c);
        let mut room = [HELD; LONGEST_LIST];
        let again = write_bins(&levels, &mut room);
        let wanted = RawH264BlockAnswer { number: number(11), greatest: greatest(&levels), state: state(13) };
        if answer != wanted || contexts != changed(&c.contexts, f[16]) || lent[..PLACES] != levels || b.list(&list, PLACES).as_ref().map(|l| &l[..]) != Ok(&levels[..])
            || again != Ok(list.len()) || room[..list.len()] != list
        {
            differ("a recorded one", &c, format!("{line}\n{answer:?} {lent:?} {again:?}"));
        }
        blocks += 1;
    }
    let text = std::fs::read_to_string(format!("{vectors}/init.txt")).expect("VECTORS has init.txt");
    for line in text.lines().filter(|l| l.starts_with("J ")) {
        let f: Vec<&str> = line.split(' ').collect();
        let contexts = b.pairs(&pairs_of(f[3]), f[2].parse().unwrap());
        assert_eq!(contexts.map(|c| c.to_vec()), Some(hex(f[4])), "{line}");
        tables += 1;
    }
    (blocks, tables)
}

/// The cases of VECTORS/02/h264.txt, which another hand made from document 02: each line's answer is written anew and compared as text.
fn cases(vectors: &str, b: &mut Blocks) -> BTreeMap<String, (u32, u32)> {
    let mut kinds = BTreeMap::<String, (u32, u32)>::new();
    let text = std::fs::read_to_string(format!("{vectors}/02/h264.txt")).expect("VECTORS/02 has h264.txt");
    for line in text.lines().filter(|l| !l.starts_with('#')) {
        let (asked, wanted) = line.split_once(" => ").unwrap();
        let mut words = asked.split_whitespace();
        let kind = words.next().unwrap();
        let keys: BTreeMap<&str, &str> = words.map(|w| w.split_once('=').unwrap()).collect();
        let number = |key: &str, otherwise: usize| keys.get(key).map_or(otherwise, |v| v.parse().unwrap());
        let bytes = |key: &str| keys.get(key).filter(|&&v| v != "-").map(|v| hex(v)).unwrap_or_default();
        let memory = |lent: &[i32]| {
            let (block, beyond) = lent.split_at(PLACES.min(lent.len()));
            match () {
                _ if beyond.iter().any(|&v| v != MARK) => "changed beyond",
                _ if block.iter().all(|&v| v == MARK) => "untouched",
                _ if block.iter().all(|&v| v == 0) => "zero",
                _ => "changed",
            }
        };
        let levels = |lent: &[i32]| {
            let some: Vec<String> = (0..PLACES).filter(|&k| lent[k] != 0).map(|k| format!("{k}:{}", lent[k])).collect();
            if some.is_empty() { "-".to_string() } else { some.join(",") }
        };
        let places = number("places", PLACES);
        let ours = match kind {
            "h264" => {
                let payload = bytes("payload");
                let contexts: [u8; CONTEXTS] = keys.get("ctx").map_or([64; CONTEXTS], |v| hex(v).try_into().unwrap());
                let state = match keys.get("state") {
                    Some(s) => {
                        let s: Vec<u32> = s.split(',').map(|v| v.parse().unwrap()).collect();
                        Ok(RawState { range: s[0], offset: s[1], position: s[2] as usize, ended: s[3] as u8, past: s[4] })
                    }
                    None => bulmegart::start(&payload).map(|s| s.raw()),
                };
                match state {
                    Err(r) => format!("answer={} at=start", r.number()),
                    Ok(state) => {
                        let c = Call { payload: &payload, state, contexts, places };
                        let (r, after, lent) = b.payload(&c);
                        let s = &r.state;
                        if r.number == 0 {
                            let change: Vec<String> = (0..CONTEXTS).filter(|&k| after[k] != contexts[k]).map(|k| format!("{k}:{:02x}", after[k])).collect();
                            let change = if change.is_empty() { "-".to_string() } else { change.join(",") };
                            format!("answer=0 levels={} state={},{},{},{},{} changes={change}", levels(&lent), s.range, s.offset, s.position, s.ended, s.past)
                        } else {
                            format!("answer={} memory={}", r.number, memory(&lent))
                        }
                    }
                }
            }
            "h264list" => {
                let list = bytes("list");
                let _ = b.list(&list, places);
                let mut lent = vec![MARK; places];
                match read_bins(&list, &mut lent) {
                    Ok(_) => format!("answer=0 levels={}", levels(&lent)),
                    Err(r) => format!("answer={} memory={}", r.number(), memory(&lent)),
                }
            }
            "h264write" => {
                let handed = placed(keys["levels"], places);
                let mut room = vec![HELD; number("room", LONGEST_LIST)];
                b.write(&handed, room.len());
                match write_bins(&handed, &mut room) {
                    Ok(n) => format!("answer=0 length={n} list={}", crate::sample::hex(&room[..n])),
                    Err(r) => format!("answer={}", r.number()),
                }
            }
            "h264init" => match b.pairs(&pairs_of(keys["pairs"]), number("q", 0) as u8) {
                Some(contexts) => format!("answer=0 ctx={}", crate::sample::hex(&contexts)),
                None => "answer=4".into(),
            },
            _ => panic!("a kind of case that is not known: {kind}"),
        };
        // where a refusal arose is request (xii)'s
        let wanted = wanted.split(" reached=").next().unwrap();
        if ours != wanted {
            println!("DIFFERENCE: {line}\nours {ours}");
            std::process::exit(1);
        }
        let seen = kinds.entry(kind.to_string()).or_default();
        seen.0 += 1;
        seen.1 += ours.starts_with("answer=0") as u32;
    }
    kinds
}

/// Levels of any kind: few or many, small or at the limits, now and then beyond them.
fn levels(r: &mut Random) -> Vec<i32> {
    let often = r.of(&[8, 40, 128, 256]);
    let kind = r.below(5);
    let mut all: Vec<i32> = (0..PLACES as u64 + r.below(3))
        .map(|_| {
            if !r.chance(often) {
                return 0;
            }
            let magnitude = match kind {
                0 => 1,
                1 => 1 + r.below(3) as i32,
                2 => 1 + r.below(40) as i32,
                3 => 1 << r.below(16),
                _ => r.of(&[1, 2, 14, 15, 16, 17, 29, 30, 16397, 16398, 32766, 32767, 32768]),
            };
            if r.chance(128) { -magnitude } else { magnitude }
        })
        .collect();
    if r.chance(6) {
        let place = r.below(all.len() as u64) as usize;
        all[place] = r.of(&[32768, -32769, i32::MAX, i32::MIN, 65549]);
    }
    if r.chance(4) {
        all.truncate(r.below(PLACES as u64) as usize);
    }
    all
}

/// A list with something wrong.
fn damaged(r: &mut Random, list: &[u8]) -> Vec<u8> {
    let mut list = list.to_vec();
    match r.below(6) {
        0 => list.truncate(r.below(list.len() as u64 + 1) as usize),
        1 => list.push(r.below(256) as u8),
        2 => list.extend(r.of(&[0u16, 62, 260, 261, ALIGNMENT_ENTRY]).to_le_bytes()),
        3 => {
            let at = r.below(list.len() as u64) as usize;
            list[at] ^= 1 << r.below(8);
        }
        4 => {
            let at = 2 * r.below(list.len() as u64 / 2) as usize;
            list[at..at + 2].copy_from_slice(&r.of(&[0u16, 30, 60, 78, 80, BYPASS_ENTRY, ALIGNMENT_ENTRY]).to_le_bytes());
        }
        _ => {
            let at = 2 * r.below(list.len() as u64 / 2) as usize;
            list.drain(at..at + 2);
        }
    }
    list
}

/// One thing wrong, now and then two.
fn spoil(r: &mut Random, c: &mut Call) {
    for _ in 0..1 + r.below(2) {
        match r.below(9) {
            0 => c.places = r.below(PLACES as u64) as usize,
            1 => c.contexts[r.below(CONTEXTS as u64) as usize] = 128 + r.below(128) as u8,
            2 => c.state.range = r.of(&[0, 1, 255, 511, 512, u32::MAX]),
            3 => c.state.offset = c.state.range.wrapping_add(r.below(3) as u32),
            4 => c.state.position = r.of(&[8 * c.payload.len() + 1, 8 * c.payload.len() + 9, usize::MAX, usize::MAX / 8, 1 << 27]),
            5 => c.state.ended = 1,
            6 => c.state.ended = r.of(&[2, 3, 128, 255]),
            7 => c.state.past = r.of(&[65536, 65537, u32::MAX]),
            _ => c.payload = &c.payload[..c.payload.len().min(r.below(2) as usize)],
        }
    }
}

pub fn run(vectors: &str, r: &mut Random, runs: u64) {
    let mut b = Blocks::default();
    let (blocks, tables) = recorded(vectors, &mut b);
    println!("recorded H.264 blocks: {blocks}, read from payload and list, written again; context tables: {tables}");
    for (kind, (all, accepted)) in cases(vectors, &mut b) {
        println!("02/h264.txt {kind}: {all} cases, {accepted} of them accepted");
    }

    // every payload of two bytes, from its start
    for x in 0..=65535u16 {
        let payload = x.to_be_bytes();
        let Ok(state) = bulmegart::start(&payload) else { continue };
        b.payload(&Call { payload: &payload, state: state.raw(), contexts: [64; CONTEXTS], places: PLACES });
    }
    for _ in 0..runs {
        let payload = inputs::payload(r);
        let contexts = inputs::contexts(r)[..CONTEXTS].try_into().unwrap();
        let mut c = Call { payload: &payload, state: inputs::state(r, &payload).raw(), contexts, places: PLACES + r.below(3) as usize };
        if r.chance(64) {
            c.state.past = 65535 - r.below(12) as u32; // where the total stops
        }
        if r.chance(24) {
            spoil(r, &mut c);
        }
        b.payload(&c);

        let handed = levels(r);
        b.write(&handed, LONGEST_LIST);
        if handed.len() >= PLACES
            && let Ok(list) = written(&handed)
        {
            b.write(&handed, r.below(list.len() as u64 + 2) as usize);
            let _ = b.list(&list, PLACES + r.below(3) as usize);
            b.pack(r, &list);
            let spoiled = damaged(r, &list);
            let _ = b.list(&spoiled, PLACES);
            b.pack(r, &spoiled);
            if r.chance(4) {
                let _ = b.list(&list, r.below(PLACES as u64) as usize);
            }
        }

        if r.chance(32) {
            let count = if r.chance(16) { r.below(90) as usize } else { 2 * CONTEXTS };
            let mut pairs: Vec<i32> = (0..count).map(|_| r.below(256) as i32 - 128).collect();
            if r.chance(16) && count > 0 {
                let at = r.below(count as u64) as usize;
                pairs[at] = r.of(&[128, -129, i32::MAX, i32::MIN]);
            }
            b.pairs(&pairs, r.below(256) as u8);
        }
    }
    // every m at every quantiser, by every n near a clip
    for qp in 0..=52u8 {
        for m in -128..=127 {
            let pairs: Vec<i32> = (0..CONTEXTS as i32).flat_map(|k| [m, (k * 7 - 128).clamp(-128, 127)]).collect();
            b.pairs(&pairs, qp);
        }
    }
    println!("H.264, calls by number: {:?}; levels read {}; past the end {}; payloads packed {} of {} bytes", b.calls, b.levels, b.past, b.packed.0, b.packed.1);
}
