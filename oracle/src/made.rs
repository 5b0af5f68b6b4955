//! Payloads made on purpose: the model's walk chooses each bin by chance and writes it with H.265's informative encoder.
use crate::cabac::engine::tables;
use crate::model::{Kind, Scans, Source, Walk, next_context, walk};
use crate::random::Random;
use bulmegart::{ALIGNMENT_ENTRY, BYPASS_ENTRY, CONTEXTS, Params};

/// Of 256, how often a bin is 1.
#[derive(Clone, Copy, Debug)]
pub struct Style {
    pub last: u64,
    pub sub_block: u64,
    pub significant: u64,
    pub greater1: u64,
    pub greater2: u64,
    pub prefix: u64,
    pub suffix: u64,
    /// The longest prefix of a remainder.
    pub longest: u32,
}

/// H.265 9.3.5: the arithmetic encoder.
pub struct Encoder {
    low: u32,
    range: u32,
    waiting: u32,
    first: bool,
    bits: Vec<u8>,
}

impl Encoder {
    pub fn new() -> Encoder {
        Encoder { low: 0, range: 510, waiting: 0, first: true, bits: Vec::new() }
    }

    fn put(&mut self, bit: u8) {
        if self.first {
            self.first = false;
        } else {
            self.bits.push(bit);
        }
        for _ in 0..std::mem::take(&mut self.waiting) {
            self.bits.push(1 - bit);
        }
    }

    fn renorm(&mut self) {
        while self.range < 256 {
            if self.low < 256 {
                self.put(0);
            } else if self.low >= 512 {
                self.low -= 512;
                self.put(1);
            } else {
                self.low -= 256;
                self.waiting += 1;
            }
            self.range <<= 1;
            self.low <<= 1;
        }
    }

    fn decision(&mut self, context: u8, bin: u32) {
        let (lps, _, _) = tables(context as usize & 63, self.range as usize / 64 % 4);
        self.range -= lps;
        if bin != context as u32 >> 6 {
            self.low += self.range;
            self.range = lps;
        }
        self.renorm();
    }

    fn bypass(&mut self, bin: u32) {
        self.low = 2 * self.low + bin * self.range;
        if self.low >= 1024 {
            self.low -= 1024;
            self.put(1);
        } else if self.low < 512 {
            self.put(0);
        } else {
            self.low -= 512;
            self.waiting += 1;
        }
    }

    /// The entries of a list, whatever its syntax, with the contexts that they use up.
    pub fn entries(&mut self, contexts: &mut [u8], list: &[u8]) {
        for entry in list.chunks_exact(2).map(|e| u16::from_le_bytes([e[0], e[1]])) {
            let bin = entry as u32 % 2;
            if entry == ALIGNMENT_ENTRY {
                self.range = 256;
            } else if entry >= BYPASS_ENTRY {
                self.bypass(bin);
            } else {
                let context = &mut contexts[entry as usize / 2];
                self.decision(*context, bin);
                *context = next_context(*context, bin);
            }
        }
    }

    /// Terminate by 0.
    pub fn go_on(&mut self) {
        self.range -= 2;
        self.renorm();
    }

    /// Terminate by 1 and the flush; zero bits fill the last byte.
    pub fn finish(mut self) -> Vec<u8> {
        self.range -= 2;
        self.low += self.range;
        self.range = 2;
        self.renorm();
        self.put((self.low >> 9 & 1) as u8);
        self.bits.push((self.low >> 8 & 1) as u8);
        self.bits.push(1);
        self.bits.chunks(8).map(|c| c.iter().enumerate().fold(0, |b, (i, bit)| b | bit << (7 - i))).collect()
    }
}

pub struct Chooser<'a> {
    pub encoder: Encoder,
    pub contexts: [u8; CONTEXTS],
    pub random: &'a mut Random,
    pub style: Style,
    pub ones: u32,
}

impl Source for Chooser<'_> {
    fn decision(&mut self, number: usize) -> u32 {
        let s = &self.style;
        let often = match number {
            0..36 => s.last,
            36..80 => s.significant,
            80..84 => s.sub_block,
            84..108 => s.greater1,
            108..114 => s.greater2,
            _ => 128,
        };
        let bin = self.random.chance(often) as u32;
        self.encoder.decision(self.contexts[number], bin);
        self.contexts[number] = next_context(self.contexts[number], bin);
        bin
    }

    fn bypass(&mut self, kind: Kind) -> u32 {
        let often = match kind {
            Kind::Prefix => self.style.prefix,
            Kind::Suffix => self.style.suffix,
            _ => 128,
        };
        let mut bin = self.random.chance(often) as u32;
        if kind == Kind::Prefix {
            if self.ones == self.style.longest {
                bin = 0;
            }
            self.ones = bin * (self.ones + 1);
        }
        self.encoder.bypass(bin);
        bin
    }

    fn align(&mut self) -> bool {
        self.encoder.range = 256;
        false
    }
}

/// One block behind those that the chooser has written.
pub fn block(c: &mut Chooser, p: &Params, scans: &Scans, statistics: &mut [u8; 4], levels: &mut [i32]) -> Walk {
    walk(c, p, scans, statistics, levels)
}

/// A payload of one block.
pub fn one(random: &mut Random, p: &Params, scans: &Scans, contexts: &[u8; CONTEXTS], statistics: &[u8; 4], style: Style) -> Vec<u8> {
    let mut c = Chooser { encoder: Encoder::new(), contexts: *contexts, random, style, ones: 0 };
    let mut levels = [0; 1024];
    block(&mut c, p, scans, &mut { *statistics }, &mut levels);
    c.encoder.finish()
}
