//! Document 01's block, bin by bin, written from its text and not from either reader.
//!
//! The walk goes on as the Rust does, with its 32 bits, also where document 01 refuses; it notes the first refusal and the rule of
//! docs/DIFFERENCES.md that it falls under. So one walk says what document 01 answers, and what the Rust must give.
use crate::cabac::engine::tables;
use bulmegart::{ALIGNMENT_ENTRY, BYPASS_ENTRY, CONTEXTS, Params};

/// What a bypass bin is for.
#[derive(Clone, Copy, PartialEq, Eq, Debug)]
pub enum Kind {
    LastSuffix,
    Sign,
    Prefix,
    Suffix,
}

/// What bins come from.
pub trait Source {
    fn decision(&mut self, number: usize) -> u32;
    fn bypass(&mut self, kind: Kind) -> u32;
    /// The range is aligned; true if the offset is 256 or more.
    fn align(&mut self) -> bool;
    /// A list that has already failed.
    fn failed(&self) -> bool {
        false
    }
}

/// One decision on a packed context: the bin, and how the range is parted.
fn packed(context: u8) -> (usize, u32) {
    (context as usize & 63, context as u32 >> 6)
}

pub fn next_context(context: u8, bin: u32) -> u8 {
    let (state, mps) = packed(context);
    let (_, up, down) = tables(state, 0);
    if bin == mps {
        up | (mps as u8) << 6
    } else if state == 0 {
        down | (1 - mps as u8) << 6
    } else {
        down | (mps as u8) << 6
    }
}

/// The engine, a bit at a time; the place runs on past the end.
pub struct Engine<'a> {
    pub payload: &'a [u8],
    pub range: u32,
    pub offset: u32,
    pub at: usize,
    pub contexts: [u8; CONTEXTS],
    pub list: Vec<u8>,
}

impl Engine<'_> {
    fn listed(&mut self, entry: u16) {
        self.list.extend(entry.to_le_bytes());
    }

    fn draw(&mut self) {
        let bit = match self.payload.get(self.at / 8) {
            Some(byte) => byte >> (7 - self.at % 8) & 1,
            None => 1,
        };
        self.at += 1;
        self.offset = self.offset << 1 | bit as u32;
    }
}

impl Source for Engine<'_> {
    fn decision(&mut self, number: usize) -> u32 {
        let (state, mps) = packed(self.contexts[number]);
        let (lps, _, _) = tables(state, self.range as usize / 64 % 4);
        self.range = self.range.wrapping_sub(lps);
        let bin = if self.offset >= self.range {
            self.offset -= self.range;
            self.range = lps;
            1 - mps
        } else {
            mps
        };
        self.contexts[number] = next_context(self.contexts[number], bin);
        while self.range < 256 {
            self.range <<= 1;
            self.draw();
        }
        self.listed(2 * number as u16 + bin as u16);
        bin
    }

    fn bypass(&mut self, _: Kind) -> u32 {
        self.draw();
        let bin = (self.offset >= self.range) as u32;
        self.offset -= bin * self.range;
        self.listed(BYPASS_ENTRY + bin as u16);
        bin
    }

    fn align(&mut self) -> bool {
        self.listed(ALIGNMENT_ENTRY);
        self.range = 256;
        self.offset >= 256
    }
}

/// A bin list, two bytes an entry; behind a failure every bin is 0, which ends each loop.
pub struct List<'a> {
    pub list: &'a [u8],
    /// In bytes.
    pub at: usize,
    pub failed: bool,
}

impl List<'_> {
    /// The next entry; none where less than two bytes are left.
    fn entry(&self) -> Option<u16> {
        match self.list[self.at..] {
            [low, high, ..] => Some(u16::from(low) + 256 * u16::from(high)),
            _ => None,
        }
    }

    fn tagged(&mut self, tag: u16) -> u32 {
        match self.entry() {
            Some(entry) if !self.failed && entry & !1 == tag => {
                self.at += 2;
                entry as u32 & 1
            }
            _ => {
                self.failed = true;
                0
            }
        }
    }
}

impl Source for List<'_> {
    fn decision(&mut self, number: usize) -> u32 {
        self.tagged(2 * number as u16)
    }

    fn bypass(&mut self, _: Kind) -> u32 {
        self.tagged(BYPASS_ENTRY)
    }

    fn align(&mut self) -> bool {
        match self.entry() {
            Some(ALIGNMENT_ENTRY) if !self.failed => self.at += 2,
            _ => self.failed = true,
        }
        false
    }

    fn failed(&self) -> bool {
        self.failed
    }
}

#[derive(Clone, Copy, PartialEq, Eq, Debug)]
pub struct Refusal {
    pub number: u32,
    /// Of docs/DIFFERENCES.md.
    pub rule: &'static str,
}

#[derive(Clone, Copy, PartialEq, Eq, Debug, Default)]
pub struct Walk {
    pub skip: bool,
    pub rdpcm: i32,
    pub column: usize,
    /// The greatest row that holds a level, and the row of the last coded position, which is the Rust's.
    pub row: usize,
    pub last_row: usize,
    pub greatest: i32,
    pub refusal: Option<Refusal>,
    /// A shift above 32 bits, which only a refused walk meets: what the Rust then gives is its machine's.
    pub wild: bool,
}

pub fn scan(w: usize, order: u32) -> Vec<(usize, usize)> {
    let mut out = Vec::new();
    match order {
        0 => {
            for d in 0..2 * w - 1 {
                for x in 0..w {
                    if d >= x && d - x < w {
                        out.push((x, d - x));
                    }
                }
            }
        }
        1 => out.extend((0..w * w).map(|i| (i % w, i / w))),
        _ => out.extend((0..w * w).map(|i| (i / w, i % w))),
    }
    out
}

/// The scans of every size, made once.
pub struct Scans(Vec<Vec<(usize, usize)>>);

impl Scans {
    pub fn new() -> Scans {
        Scans((0..12).map(|i| scan(1 << (i / 3), i as u32 % 3)).collect())
    }

    fn of(&self, log2: u32, order: u32) -> &[(usize, usize)] {
        &self.0[(3 * log2 + order) as usize]
    }
}

const MAP4: [usize; 15] = [0, 1, 4, 5, 2, 3, 4, 5, 6, 6, 8, 8, 7, 7, 8];
const LEAST: [usize; 10] = [0, 1, 2, 3, 4, 6, 8, 12, 16, 24];

/// Of position (x, y) in the block: near says which neighbours are coded, right 1 and below 2.
fn significance(p: &Params, x: usize, y: usize, near: usize) -> usize {
    let chroma = if p.luma { 0 } else { 27 };
    if p.log2 == 2 {
        return chroma + MAP4[4 * y + x];
    }
    if x + y == 0 {
        return chroma;
    }
    let (u, v) = (x % 4, y % 4);
    let mut c = match near {
        0 => [2, 1, 1, 0, 0, 0, 0][u + v],
        1 => [2, 1, 0, 0][v],
        2 => [2, 1, 0, 0][u],
        _ => 2,
    };
    if p.luma {
        if (x / 4, y / 4) != (0, 0) {
            c += 3;
        }
        c += if p.log2 == 3 { if p.scan == 0 { 9 } else { 15 } } else { 21 };
    } else {
        c += if p.log2 == 3 { 9 } else { 12 };
    }
    chroma + c
}

fn bits<S: Source>(s: &mut S, count: u32, kind: Kind) -> u64 {
    (0..count).fold(0, |v, _| v << 1 | s.bypass(kind) as u64)
}

fn prefix<S: Source>(s: &mut S, p: &Params, base: usize) -> usize {
    let l = p.log2 as usize;
    let greatest = [3, 5, 7, 9][l - 2];
    let mut group = 0;
    while group < greatest {
        let context = if p.luma { 3 * (l - 2) + (l - 1) / 4 + (group >> ((l + 1) / 4)) } else { 15 + (group >> (l - 2)) };
        if s.decision(base + context) == 0 {
            break;
        }
        group += 1;
    }
    group
}

/// A remainder: whole, and as 32 bits hold it; or the rule that refuses its lengths, and then what the Rust gives.
struct Remainder {
    whole: u64,
    wrapped: u32,
    lengths: Option<&'static str>,
    wild: bool,
}

fn remainder<S: Source>(s: &mut S, p: &Params, rice: u32) -> Remainder {
    let mut ones = 0u32;
    while ones < 4 && s.bypass(Kind::Prefix) == 1 {
        ones += 1;
    }
    let wild = rice > 32;
    if ones < 4 {
        let suffix = bits(s, rice, Kind::Suffix);
        let whole = if rice > 40 { u64::MAX } else { ((ones as u64) << rice) + suffix };
        return Remainder { whole, wrapped: ones.wrapping_shl(rice).wrapping_add(suffix as u32), lengths: None, wild };
    }
    let front = 4u32.wrapping_shl(rice);
    let order = rice + 1;
    let refused = |rule| Remainder { whole: 0, wrapped: front, lengths: Some(rule), wild };
    let (limit, rule) = if p.extended { (28 - range_bits(p), "D8") } else { (31, "D3") };
    let mut more = 0;
    while more < limit && s.bypass(Kind::Prefix) == 1 {
        more += 1;
    }
    let length = if p.extended && more == limit { range_bits(p) } else { more + order };
    if p.extended {
        if length > 32 || order >= 32 {
            return refused(rule);
        }
    } else if more == limit {
        return refused(rule);
    } else if length >= 32 {
        return refused("D4");
    }
    let suffix = bits(s, length, Kind::Suffix);
    let whole = (4u64 << rice) + (((1u64 << more) - 1) << order) + suffix;
    let wrapped = front.wrapping_add(((1u32 << more) - 1).checked_shl(order).unwrap_or(0)).wrapping_add(suffix as u32);
    Remainder { whole, wrapped, lengths: None, wild }
}

pub fn range_bits(p: &Params) -> u32 {
    if p.extended { 15.max(p.depth + 6) } else { 15 }
}

/// The rule of an 8 for a level that is out of the range, by what the Rust makes of its remainder.
fn rule_of(p: &Params, base: i32, r: &Remainder) -> &'static str {
    if r.wrapped as u64 != r.whole {
        if p.extended { "D9" } else { "D5" }
    } else if (r.wrapped as i32).checked_add(base).is_none() {
        "D6"
    } else if (r.wrapped as i32) < 0 {
        "D7"
    } else {
        "D2"
    }
}

pub fn walk<S: Source>(s: &mut S, p: &Params, scans: &Scans, statistics: &mut [u8; 4], levels: &mut [i32]) -> Walk {
    let n = 1usize << p.log2;
    levels[..n * n].fill(0);
    let chroma = !p.luma as usize;
    let mut out = Walk { rdpcm: -1, ..Walk::default() };
    out.skip = p.skip_allowed && !p.lossless && s.decision(114 + chroma) == 1;
    let flat = out.skip || p.lossless;
    if p.explicit_rdpcm && p.inter && flat && s.decision(116 + chroma) == 1 {
        out.rdpcm = s.decision(118 + chroma) as i32;
    }
    let (gx, gy) = (prefix(s, p, 0), prefix(s, p, 18));
    let mut last = [gx, gy].map(|g| LEAST[g] + bits(s, if g < 2 { 0 } else { (g as u32 - 2) / 2 }, Kind::LastSuffix) as usize);
    if p.scan == 2 {
        last.swap(0, 1);
    }
    out.last_row = last[1];
    let (outer, inner) = (scans.of(p.log2 - 2, p.scan), scans.of(2, p.scan));
    let last_sub = outer.iter().position(|&q| q == (last[0] / 4, last[1] / 4)).unwrap();
    let last_place = inner.iter().position(|&q| q == (last[0] % 4, last[1] % 4)).unwrap();
    let mut coded = [[false; 9]; 9];
    let mut earlier: Option<bool> = None; // whether the nearest earlier sub-block with a level had a greater1 bin 1
    for i in (0..=last_sub).rev() {
        let (xs, ys) = outer[i];
        let near = coded[ys][xs + 1] as usize + 2 * coded[ys + 1][xs] as usize;
        let middle = 0 < i && i < last_sub;
        if middle && s.decision(80 + 2 * chroma + (near != 0) as usize) == 0 {
            continue;
        }
        coded[ys][xs] = true;
        let mut places = Vec::with_capacity(16);
        let mut top = 16;
        if i == last_sub {
            places.push(last_place);
            top = last_place;
        }
        for k in (0..top).rev() {
            let (x, y) = (4 * xs + inner[k].0, 4 * ys + inner[k].1);
            let significant = if k == 0 && middle && places.is_empty() {
                true
            } else if p.skip_context && flat {
                s.decision(36 + 42 + chroma) == 1
            } else {
                s.decision(36 + significance(p, x, y, near)) == 1
            };
            if significant {
                places.push(k);
            }
        }
        if places.is_empty() {
            continue;
        }
        coefficients(s, p, statistics, levels, &mut out, inner, (xs, ys), i == 0, &places, &mut earlier, flat);
    }
    if out.refusal.is_none() && s.failed() {
        out.refusal = Some(Refusal { number: 13, rule: "list" });
    }
    out.row = greatest_row(&levels[..n * n], n);
    out
}

/// The greatest row that holds a level, by looking at every place.
pub fn greatest_row(levels: &[i32], n: usize) -> usize {
    levels.iter().enumerate().filter(|(_, v)| **v != 0).map(|(k, _)| k / n).max().unwrap_or(0)
}

/// Greater1, greater2, alignment, signs and remainders of one sub-block.
#[allow(clippy::too_many_arguments)]
fn coefficients<S: Source>(
    s: &mut S,
    p: &Params,
    statistics: &mut [u8; 4],
    levels: &mut [i32],
    out: &mut Walk,
    inner: &[(usize, usize)],
    (xs, ys): (usize, usize),
    first_sub: bool,
    places: &[usize],
    earlier: &mut Option<bool>,
    flat: bool,
) {
    let n = 1usize << p.log2;
    let set = if first_sub || !p.luma { 0 } else { 2 } + (*earlier == Some(true)) as usize;
    let mut carry = 1;
    let mut greater1 = Vec::with_capacity(8);
    for _ in places.iter().take(8) {
        let bin = s.decision(84 + if p.luma { 0 } else { 16 } + 4 * set + carry) == 1;
        greater1.push(bin);
        carry = match (bin, carry) {
            (true, _) => 0,
            (false, 0) => 0,
            (false, c) => (c + 1).min(3),
        };
    }
    *earlier = Some(carry == 0);
    let first = greater1.iter().position(|&b| b);
    let greater2 = first.is_some() && s.decision(108 + if p.luma { 0 } else { 4 } + set) == 1;
    let escape = places.len() > 8 || greater1.iter().filter(|&&b| b).count() > 1 || greater2;
    if p.aligning && escape && s.align() && out.refusal.is_none() && !s.failed() {
        out.refusal = Some(Refusal { number: 7, rule: "D11" });
    }
    let spread = places[0] - places[places.len() - 1];
    let hidden = p.hiding && spread > 3 && !p.lossless && out.rdpcm < 0 && !(out.skip && p.implicit_rdpcm);
    let coded = places.len() - hidden as usize;
    let signs: Vec<bool> = (0..coded).map(|_| s.bypass(Kind::Sign) == 1).collect();
    let which = 2 * p.luma as usize + flat as usize;
    let mut rice = if p.persistent { statistics[which] as u32 / 4 } else { 0 };
    let mut fresh = true;
    let mut odd = false;
    let bound = 1i64 << range_bits(p);
    for (j, &k) in places.iter().enumerate() {
        let mut base = 1;
        base += (j < 8 && greater1[j]) as i32;
        base += (first == Some(j) && greater2) as i32;
        let full = if j >= 8 { 1 } else if first == Some(j) { 3 } else { 2 };
        let mut level = base;
        let mut refused = None;
        let mut whole = base as i64;
        if base == full {
            let r = remainder(s, p, rice);
            out.wild |= r.wild;
            whole = (r.whole as i64).saturating_add(base as i64);
            level = base.wrapping_add(r.wrapped as i32);
            refused = r.lengths;
            if refused.is_none() && whole > bound - 1 {
                refused = Some(rule_of(p, base, &r)); // unless it is -2^T, below
            }
            if p.persistent && fresh {
                let statistic = &mut statistics[which];
                let step = *statistic as u32 / 4;
                if r.wrapped >= 3u32.wrapping_shl(step) {
                    *statistic += 1;
                } else if r.wrapped.wrapping_mul(2) < 1u32.wrapping_shl(step) && *statistic > 0 {
                    *statistic -= 1;
                }
            }
            fresh = false;
            if level > 3i32.wrapping_shl(rice) {
                rice += 1;
                if !p.persistent {
                    rice = rice.min(4);
                }
            }
        }
        odd ^= level & 1 != 0;
        let negative = if hidden && j == coded { odd } else { signs[j] };
        if whole == bound && negative && refused == Some("D2") {
            refused = None;
        }
        if let (Some(rule), None, false) = (refused, out.refusal, s.failed()) {
            out.refusal = Some(Refusal { number: 8, rule });
        }
        let (x, y) = (4 * xs + inner[k].0, 4 * ys + inner[k].1);
        out.greatest = out.greatest.max(level);
        out.column = out.column.max(x);
        levels[y * n + x] = if hidden && j == coded {
            // the Rust takes the absolute value first
            if negative { level.wrapping_abs().wrapping_neg() } else { level.wrapping_abs() }
        } else if negative {
            level.wrapping_neg()
        } else {
            level
        };
    }
}
