//! Request (vii)'s scale, written from its text, beside the archive's three functions.
//!
//! From a payload the bins are read by the Rust's own engine and by the model's, which must agree; past the end the Rust is asked again on the
//! payload with ones behind it, since its place stays at the end.
use crate::cabac::contexts::CtxModel;
use crate::cabac::engine;
use crate::inputs::{self, hex};
use crate::model::{Engine, Source};
use crate::random::Random;
use bulmegart::raw::{RawScaleAnswer, RawScaleListAnswer, RawState, RawWriteAnswer, bulmegart_read_scale, bulmegart_read_scale_bins, bulmegart_write_scale_bins};
use bulmegart::{ALIGNMENT_ENTRY, BYPASS_ENTRY, CONTEXTS};
use std::collections::BTreeMap;

/// The first context of the value's bins, and of the signs.
const VALUES: usize = 120;
const SIGNS: usize = 128;
/// What a byte of a lent room holds before a call.
const HELD: u8 = 0xa5;

/// Up to four ones, left at the first zero; if it isn't 0, a sign. None where there is no bin.
fn scale(component: usize, mut bin: impl FnMut(usize) -> Option<bool>) -> Option<i32> {
    let mut value = 0;
    while value < 4 && bin(VALUES + 4 * component + value)? {
        value += 1;
    }
    if value == 0 {
        return Some(0);
    }
    let magnitude = 1 << (value - 1);
    Some(if bin(SIGNS + component)? { -magnitude } else { magnitude })
}

/// The scale of a list, or the number of its refusal.
fn read(list: &[u8], component: u32) -> Result<i32, u32> {
    if component > 1 {
        return Err(4);
    }
    let mut left = list;
    let found = scale(component as usize, |number| match *left {
        [low, high, ref rest @ ..] if (usize::from(low) + 256 * usize::from(high)) / 2 == number => {
            left = rest;
            Some(low % 2 == 1)
        }
        _ => None,
    });
    match found {
        Some(z) if left.is_empty() => Ok(z),
        _ => Err(13),
    }
}

/// The list of a scale: as many ones as its value, a zero unless they are four, a sign unless they are none.
fn written(component: u32, z: i32) -> Result<Vec<u8>, u32> {
    let value = [0, 1, 2, 4, 8].iter().position(|&m| m == z.unsigned_abs());
    let (0..=1, Some(value)) = (component, value) else {
        return Err(4);
    };
    let context = |bin: usize| (VALUES + 4 * component as usize + bin) as u16;
    let mut entries: Vec<u16> = (0..value).map(|bin| 2 * context(bin) + 1).collect();
    if value < 4 {
        entries.push(2 * context(value));
    }
    if value > 0 {
        entries.push(2 * (SIGNS as u16 + component as u16) + (z < 0) as u16);
    }
    Ok(entries.into_iter().flat_map(u16::to_le_bytes).collect())
}

#[derive(Clone)]
pub struct Call<'a> {
    pub payload: &'a [u8],
    pub state: RawState,
    pub contexts: [u8; CONTEXTS],
    pub component: u32,
}

impl Call<'_> {
    /// 1, 2, 4, 3, 6.
    fn refusal(&self) -> u32 {
        let s = &self.state;
        if self.payload.len() < 2 {
            1
        } else if self.payload.len() > 1 << 24 {
            2
        } else if s.ended > 1 || self.component > 1 {
            4
        } else if s.position > 8 * self.payload.len()
            || s.past > 65535
            || s.ended == 0 && !((256..=510).contains(&s.range) && s.offset < s.range)
            || self.contexts.iter().any(|&c| c > 127)
        {
            3
        } else if s.ended == 1 {
            6
        } else {
            0
        }
    }
}

fn differ(what: &str, c: &Call, detail: String) -> ! {
    println!("DIFFERENCE: scale, {what}");
    println!("payload {:02x?} component {}\n{:?}\ncontexts {:?}\n{detail}", &c.payload[..c.payload.len().min(64)], c.component, c.state, c.contexts);
    std::process::exit(1);
}

/// Counts by function and number.
#[derive(Default)]
pub struct Scales {
    pub calls: BTreeMap<(&'static str, u32), u64>,
    past: u64,
}

impl Scales {
    fn count(&mut self, name: &'static str, number: u32) {
        *self.calls.entry((name, number)).or_default() += 1;
    }

    /// By the Rust's engine: the scale, range, offset, place, contexts.
    fn theirs(payload: &[u8], c: &Call) -> (i32, u32, u32, usize, [u8; CONTEXTS]) {
        let mut dec = engine::at(payload, c.state.range, c.state.offset, c.state.position);
        let mut models = c.contexts.map(|state| CtxModel { state });
        let z = scale(c.component as usize, |number| Some(dec.decode_bin(&mut models[number]) == 1)).unwrap();
        (z, dec.range, dec.offset, engine::place(&dec), models.map(|m| m.state))
    }

    /// One call by all; answers the archive's answer and what it left in the contexts.
    pub fn payload(&mut self, c: &Call) -> (RawScaleAnswer, [u8; CONTEXTS]) {
        let mut contexts = c.contexts;
        // Sound: each pointer is to as many elements as the archive takes it for.
        let ours = unsafe { bulmegart_read_scale(c.payload.as_ptr(), c.payload.len(), c.state, contexts.as_mut_ptr(), c.component) };
        let number = c.refusal();
        self.count("from a payload", number);
        if number != 0 {
            if ours != (RawScaleAnswer { number, scale: 0, state: c.state }) || contexts != c.contexts {
                differ("refused", c, format!("ours {ours:?}, wanted {number}, contexts kept {}", contexts == c.contexts));
            }
            return (ours, contexts);
        }
        let end = 8 * c.payload.len();
        let s = &c.state;
        let mut e = Engine { payload: c.payload, range: s.range, offset: s.offset, at: s.position, contexts: c.contexts, list: Vec::new() };
        let z = scale(c.component as usize, |number| Some(e.decision(number) == 1)).unwrap();
        let modelled = (z, e.range, e.offset, e.at.min(end), e.contexts);
        if Self::theirs(c.payload, c) != modelled {
            differ("the Rust and the model", c, format!("{:?}\n{modelled:?}", Self::theirs(c.payload, c)));
        }
        if e.at > end {
            self.past += 1;
            let mut long = c.payload.to_vec();
            long.resize(c.payload.len() + 8, 255);
            if Self::theirs(&long, c) != (z, e.range, e.offset, e.at, e.contexts) {
                differ("bits past the end", c, format!("{:?}\n{modelled:?} {}", Self::theirs(&long, c), e.at));
            }
        }
        let past = (s.past + e.at.saturating_sub(end) as u32).min(65535);
        let state = RawState { range: e.range, offset: e.offset, position: e.at.min(end), ended: 0, past };
        if ours != (RawScaleAnswer { number: 0, scale: z, state }) || contexts != e.contexts {
            differ("accepted", c, format!("ours {ours:?} {contexts:?}\nwanted {z} {state:?} {:?}", e.contexts));
        }
        if self.list(&e.list, c.component) != Some(z) {
            differ("its own bins as a list", c, format!("{:?}", e.list));
        }
        (ours, contexts)
    }

    /// A list by ours and by the model; one that is read is what the writer makes of its scale.
    pub fn list(&mut self, list: &[u8], component: u32) -> Option<i32> {
        // Sound, as below: the pointer is to as many bytes as the length says.
        let ours = unsafe { bulmegart_read_scale_bins(list.as_ptr(), list.len(), component) };
        let wanted = read(list, component);
        self.count("from a list", wanted.err().unwrap_or(0));
        let answer = RawScaleListAnswer { number: wanted.err().unwrap_or(0), scale: wanted.unwrap_or(0) };
        if ours != answer || wanted.is_ok_and(|z| written(component, z).as_deref() != Ok(list)) {
            println!("DIFFERENCE: scale from a list {list:02x?}, component {component}: ours {ours:?}, wanted {wanted:?}");
            std::process::exit(1);
        }
        if let Ok(z) = wanted {
            for less in 0..2 {
                self.write(component, z, list.len() - less);
            }
        }
        wanted.ok()
    }

    /// A scale written in a room, by ours and by the model.
    pub fn write(&mut self, component: u32, z: i32, room: usize) {
        let mut lent = vec![HELD; room + 2];
        let ours = unsafe { bulmegart_write_scale_bins(component, z, lent.as_mut_ptr(), room) };
        let wanted = written(component, z).and_then(|list| if list.len() > room { Err(12) } else { Ok(list) });
        self.count("written", wanted.as_ref().err().copied().unwrap_or(0));
        let list = wanted.clone().unwrap_or_default();
        let answer = RawWriteAnswer { number: wanted.err().unwrap_or(0), length: list.len() };
        if ours != answer || lent[..list.len()] != list || lent[list.len()..].iter().any(|&b| b != HELD) {
            println!("DIFFERENCE: scale {z} written, component {component}, room {room}: ours {ours:?} {lent:02x?}, wanted {answer:?} {list:02x?}");
            std::process::exit(1);
        }
    }
}

/// One thing wrong, now and then two.
fn spoil(r: &mut Random, c: &mut Call) {
    for _ in 0..1 + r.below(2) {
        match r.below(10) {
            0 | 1 => c.component = r.of(&[2, 3, 4, 256, u32::MAX]),
            2 => c.contexts[r.below(CONTEXTS as u64) as usize] = 128 + r.below(128) as u8,
            3 => c.state.range = r.of(&[0, 1, 255, 511, 512, u32::MAX]),
            4 => c.state.offset = c.state.range.wrapping_add(r.below(3) as u32),
            5 => c.state.position = r.of(&[8 * c.payload.len() + 1, 8 * c.payload.len() + 9, usize::MAX, usize::MAX / 8, 1 << 27]),
            6 => c.state.ended = 1,
            7 => c.state.ended = r.of(&[2, 3, 128, 255]),
            8 => c.state.past = r.of(&[65536, 65537, u32::MAX]),
            _ => c.payload = &c.payload[..c.payload.len().min(r.below(2) as usize)],
        }
    }
}

fn real(vectors: &str, s: &mut Scales) -> usize {
    let text = std::fs::read_to_string(format!("{vectors}/cross.txt")).expect("VECTORS has cross.txt");
    let mut count = 0;
    for line in text.lines().filter(|l| l.starts_with("X ")) {
        let f: Vec<&str> = line.split(' ').collect();
        let number = |k: usize| f[k].parse::<u32>().unwrap();
        let state = |k: usize| RawState { range: number(k), offset: number(k + 1), position: number(k + 2) as usize, ended: 0, past: 0 };
        let (payload, component) = (hex(f[6]), number(2));
        let c = Call { payload: &payload, state: state(3), contexts: hex(f[7]).try_into().unwrap(), component };
        let z: i32 = f[9].parse().unwrap();
        let mut after = c.contexts;
        for change in f[13].split(',').filter(|&change| change != "-") {
            let (number, byte) = change.split_once(':').unwrap();
            after[number.parse::<usize>().unwrap()] = u8::from_str_radix(byte, 16).unwrap();
        }
        let recorded = (RawScaleAnswer { number: 0, scale: z, state: state(10) }, after);
        if s.payload(&c) != recorded || s.list(&hex(f[8]), component) != Some(z) {
            differ("a recorded one", &c, format!("{line}\n{recorded:?}"));
        }
        count += 1;
    }
    count
}

/// Every list of up to `entries` entries from an alphabet that has all of this component's, as it is and with a byte more; how many were read.
fn every_list(s: &mut Scales, component: u32, entries: usize) -> (u64, u64) {
    let own = 4 * component as u16;
    let mut alphabet: Vec<u16> = (0..8).map(|k| 2 * (VALUES as u16 + own) + k).collect();
    alphabet.extend((0..2).map(|k| 2 * (SIGNS as u16 + component as u16) + k));
    alphabet.extend([2 * (VALUES as u16 + 4 - own), BYPASS_ENTRY, ALIGNMENT_ENTRY]);
    let (mut lists, mut taken) = (0, 0);
    for length in 0..=entries {
        for mut k in 0..alphabet.len().pow(length as u32) {
            let mut list = Vec::with_capacity(2 * length + 1);
            for _ in 0..length {
                list.extend(alphabet[k % alphabet.len()].to_le_bytes());
                k /= alphabet.len();
            }
            taken += s.list(&list, component).is_some() as u64;
            list.push(k as u8);
            taken += s.list(&list, component).is_some() as u64;
            lists += 2;
        }
    }
    (lists, taken)
}

pub fn run(vectors: &str, r: &mut Random, runs: u64) {
    let mut s = Scales::default();
    println!("recorded scales: {}", real(vectors, &mut s));

    // every payload of two bytes, from its start
    for x in 0..=65535u16 {
        let payload = x.to_be_bytes();
        let Ok(state) = bulmegart::start(&payload) else { continue };
        for component in 0..2 {
            s.payload(&Call { payload: &payload, state: state.raw(), contexts: [64; CONTEXTS], component });
        }
    }
    for k in 0..runs {
        let payload = inputs::payload(r);
        let mut c = Call { payload: &payload, state: inputs::state(r, &payload).raw(), contexts: inputs::contexts(r), component: k as u32 % 2 };
        if r.chance(64) {
            c.state.past = 65535 - r.below(12) as u32; // where the total stops
        }
        if r.chance(32) {
            spoil(r, &mut c);
        }
        s.payload(&c);
    }
    let long = vec![0u8; (1 << 24) + 1];
    for length in [1 << 24, (1 << 24) + 1] {
        for component in [1, 2] {
            let state = RawState { range: 510, offset: 9, position: 8 * length - 2, ended: 0, past: 0 };
            s.payload(&Call { payload: &long[..length], state, contexts: [64; CONTEXTS], component });
        }
    }

    // every list of up to two bytes, and of up to five entries that have to do with a scale
    for component in [0, 1, 2, u32::MAX] {
        s.list(&[], component);
        for x in 0..=65535u16 {
            s.list(&x.to_le_bytes(), component);
            if x < 256 {
                s.list(&[x as u8], component);
            }
        }
    }
    for component in 0..2 {
        let (lists, taken) = every_list(&mut s, component, 5);
        assert_eq!(taken, 9, "component {component}");
        println!("lists of up to five entries, component {component}: {lists}, of those read {taken}");
    }

    // every scale near 0, and each power of two with its neighbours, in each room
    let near = (0..32).flat_map(|k| [-1i64, 0, 1].into_iter().flat_map(move |d| [(1i64 << k) + d, -(1i64 << k) + d]));
    let scales: Vec<i32> = near.chain(-300..300).chain([i32::MIN as i64, i32::MAX as i64]).filter_map(|z| z.try_into().ok()).collect();
    for &z in &scales {
        for component in [0, 1, 2, 3, u32::MAX] {
            for room in 0..14 {
                s.write(component, z, room);
            }
        }
    }
    println!("scales, calls by number: {:?}; past the end {}", s.calls, s.past);
}
