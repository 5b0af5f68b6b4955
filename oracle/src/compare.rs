//! One input to both sides and to the model; every result compared.
use crate::cabac::contexts::ContextSet;
use crate::cabac::engine;
use crate::model::{Engine, List, Scans, Walk, greatest_row, walk};
use crate::peer;
use bulmegart::{BYPASS_ENTRY, CONTEXTS, Found, Params, Rdpcm, Refusal, State, read_bins, residual_coding, write_bins};
use std::collections::BTreeMap;

pub struct Input<'a> {
    pub payload: &'a [u8],
    pub state: State,
    pub contexts: [u8; CONTEXTS],
    pub statistics: [u8; 4],
    pub params: Params,
    pub room: usize,
}

/// What a place of a lent block holds before a call.
pub const HELD: i32 = 0x5a5a_5a5a;

/// Both sides' buffers, and the counts.
pub struct Bench {
    pub scans: Scans,
    set: ContextSet,
    ours: Vec<i32>,
    theirs: Vec<i32>,
    modelled: Vec<i32>,
    list: Vec<u8>,
    /// By number and rule.
    pub answers: BTreeMap<(u32, &'static str), u64>,
    pub lists: BTreeMap<u32, u64>,
    pub blocks: u64,
    pub wild: u64,
    pub past: u64,
    /// Accepted blocks in which the Rust's row is not the greatest row of its levels.
    pub moved: u64,
    pub written: u64,
}

pub fn number_of(r: Rdpcm) -> i32 {
    match r {
        Rdpcm::None => -1,
        Rdpcm::Horizontal => 0,
        Rdpcm::Vertical => 1,
    }
}

/// Document 01's numbers before anything is read.
pub fn refused_at_once(i: &Input) -> u32 {
    let p = &i.params;
    let s = &i.state;
    let size = (2..=5).contains(&p.log2);
    if i.payload.len() < 2 {
        1
    } else if i.payload.len() > 1 << 24 {
        2
    } else if !size || p.scan > 2 || !(8..=16).contains(&p.depth) || i.room < 1 << (2 * p.log2) {
        4
    } else if s.position > 8 * i.payload.len()
        || s.past > 65535
        || !s.ended && !((256..=510).contains(&s.range) && s.offset < s.range)
        || i.contexts.iter().any(|&c| c > 127)
        || i.statistics.iter().any(|&c| c > 84)
    {
        3
    } else if s.ended {
        6
    } else {
        0
    }
}

fn differ(what: &str, i: &Input, detail: String) -> ! {
    println!("DIFFERENCE: {what}");
    println!("payload {}", i.payload.iter().map(|b| format!("{b:02x}")).collect::<String>());
    println!("{:?}\n{:?}\nstatistics {:?} room {}", i.params, i.state, i.statistics, i.room);
    println!("contexts {:?}\n{detail}", i.contexts);
    std::process::exit(1);
}

impl Bench {
    pub fn new() -> Bench {
        Bench {
            scans: Scans::new(),
            set: peer::empty_set(),
            ours: vec![HELD; 1100],
            theirs: vec![0; 1024],
            modelled: vec![0; 1024],
            list: Vec::new(),
            answers: BTreeMap::new(),
            lists: BTreeMap::new(),
            blocks: 0,
            wild: 0,
            past: 0,
            moved: 0,
            written: 0,
        }
    }

    /// Our answer to an input, with contexts and statistics behind it; the levels are in `self.ours`.
    fn ours(&mut self, i: &Input) -> (Result<(Found, State), Refusal>, [u8; CONTEXTS], [u8; 4]) {
        let (mut contexts, mut statistics) = (i.contexts, i.statistics);
        self.ours[..i.room + 8].fill(HELD);
        let r = residual_coding(i.payload, i.state, &mut contexts, &mut statistics, i.params, &mut self.ours[..i.room]);
        (r, contexts, statistics)
    }

    /// The model's walk by the engine, where nothing refuses at once; answers the walk, the engine behind it and the statistics.
    pub fn model<'a>(&mut self, i: &Input<'a>) -> (Walk, Engine<'a>, [u8; 4]) {
        let mut list = std::mem::take(&mut self.list);
        list.clear();
        let s = &i.state;
        let mut e = Engine { payload: i.payload, range: s.range, offset: s.offset, at: s.position, contexts: i.contexts, list };
        let mut statistics = i.statistics;
        let w = walk(&mut e, &i.params, &self.scans, &mut statistics, &mut self.modelled);
        (w, e, statistics)
    }

    pub fn modelled(&self) -> &[i32] {
        &self.modelled
    }

    /// The number answered. With `list` the bins are read as a list too.
    pub fn block(&mut self, i: &Input, list: bool) -> u32 {
        self.blocks += 1;
        let (r, contexts, statistics) = self.ours(i);
        let at_once = refused_at_once(i);
        if at_once != 0 {
            let kept = contexts == i.contexts && statistics == i.statistics && self.ours[..i.room + 8].iter().all(|&v| v == HELD);
            if r.map_err(Refusal::number) != Err(at_once) || !kept {
                differ("refused at once", i, format!("ours {r:?}, document 01 {at_once}, kept {kept}"));
            }
            *self.answers.entry((at_once, "checks")).or_default() += 1;
            return at_once;
        }
        let n2 = 1usize << (2 * i.params.log2);
        let (w, e, after) = self.model(i);
        let last_row = self.theirs_agree(i, &w, &e, &after, n2);
        if self.ours[n2..i.room + 8].iter().any(|&v| v != HELD) {
            differ("places past n·n", i, format!("{r:?}"));
        }
        let number = match w.refusal {
            None => {
                let (end, past) = (8 * i.payload.len(), e.at > 8 * i.payload.len());
                let state = State { range: e.range, offset: e.offset, position: e.at.min(end), ended: false, past: (i.state.past as usize + e.at.saturating_sub(end)).min(65535) as u32 };
                let Ok((f, next)) = r else { differ("ours refuses", i, format!("ours {r:?}, {w:?}")) };
                let seen = (f.skip, number_of(f.rdpcm), f.column as usize, f.row as usize, f.greatest as i32);
                let row = greatest_row(&self.theirs[..n2], 1 << i.params.log2);
                self.moved += (last_row != row) as u64;
                if seen != (w.skip, w.rdpcm, w.column, row, w.greatest)
                    || next != state
                    || contexts != e.contexts
                    || statistics != after
                    || self.ours[..n2] != self.modelled[..n2]
                {
                    differ("accepted", i, format!("ours {r:?} {statistics:?}\n{w:?} {state:?} {after:?}"));
                }
                self.past += past as u64;
                *self.answers.entry((0, "")).or_default() += 1;
                0
            }
            Some(refusal) => {
                let kept = contexts == i.contexts && statistics == i.statistics && self.ours[..n2].iter().all(|&v| v == 0);
                if r.map_err(Refusal::number) != Err(refusal.number) || !kept {
                    differ("refused", i, format!("ours {r:?}, {w:?}, kept {kept}"));
                }
                *self.answers.entry((refusal.number, refusal.rule)).or_default() += 1;
                refusal.number
            }
        };
        self.list = e.list;
        if list {
            let mut bins = std::mem::take(&mut self.list);
            self.list(i, &bins);
            // cut short, in an entry too; a byte or an entry too many; a bit turned, an entry's bytes exchanged
            let turn = self.blocks as usize;
            if !bins.is_empty() {
                let cut = turn % bins.len();
                self.list(i, &bins[..cut]);
                bins.extend(BYPASS_ENTRY.to_le_bytes());
                self.list(i, &bins);
                bins.pop();
                self.list(i, &bins);
                bins.pop();
                bins[cut] ^= 1 << (turn / 7 % 8);
                self.list(i, &bins);
                bins[cut] ^= 1 << (turn / 7 % 8);
                bins.swap(cut & !1, cut | 1);
                self.list(i, &bins);
            }
            self.list = bins;
        }
        number
    }

    /// The Rust beside the model's walk, also where document 01 refuses; answers the Rust's row.
    fn theirs_agree(&mut self, i: &Input, w: &Walk, e: &Engine, after: &[u8; 4], n2: usize) -> usize {
        if w.wild {
            self.wild += 1;
            return w.last_row;
        }
        peer::lend(&mut self.set, &i.contexts, &i.statistics);
        let mut dec = peer::decoder(i.payload, &i.state);
        let f = peer::block(&mut dec, &mut self.set, &i.params, &mut self.theirs);
        let (mut contexts, mut statistics) = ([0; CONTEXTS], [0; 4]);
        peer::give_back(&mut self.set, &mut contexts, &mut statistics);
        let place = engine::place(&dec);
        if (f.skip, f.rdpcm, f.column, f.row, f.greatest) != (w.skip, w.rdpcm, w.column, w.last_row, w.greatest)
            || (dec.range, dec.offset, place) != (e.range, e.offset, e.at.min(8 * i.payload.len()))
            || contexts != e.contexts
            || statistics != *after
            || self.theirs[..n2] != self.modelled[..n2]
        {
            differ("the Rust and the model", i, format!("{f:?} {} {} {place} {statistics:?}\n{w:?} {} {} {} {after:?}", dec.range, dec.offset, e.range, e.offset, e.at));
        }
        if e.at > 8 * i.payload.len() {
            self.theirs_goes_on(i, e);
        }
        f.row
    }

    /// The Rust stays at the end. On a payload that goes on in ones it reads the same bits, and its place says how many.
    fn theirs_goes_on(&mut self, i: &Input, e: &Engine) {
        let mut long = i.payload.to_vec();
        long.resize(i.payload.len() + 8192, 255);
        peer::lend(&mut self.set, &i.contexts, &i.statistics);
        let mut dec = peer::decoder(&long, &i.state);
        peer::block(&mut dec, &mut self.set, &i.params, &mut self.theirs);
        let place = engine::place(&dec);
        if (dec.range, dec.offset, place) != (e.range, e.offset, e.at) {
            differ("bits past the end", i, format!("{} {} {place}\n{} {} {}", dec.range, dec.offset, e.range, e.offset, e.at));
        }
    }

    /// A bin list by ours and by the model.
    fn list(&mut self, i: &Input, bins: &[u8]) {
        let n2 = 1usize << (2 * i.params.log2);
        let mut statistics = i.statistics;
        self.ours[..i.room + 8].fill(HELD);
        let r = read_bins(bins, &mut statistics, i.params, &mut self.ours[..i.room]);
        let mut source = List { list: bins, at: 0, failed: false };
        let mut after = i.statistics;
        let w = walk(&mut source, &i.params, &self.scans, &mut after, &mut self.modelled);
        let wanted = match w.refusal {
            Some(refusal) => Err(refusal.number),
            None if source.at < bins.len() => Err(13),
            None => Ok((w.skip, w.rdpcm, w.column, w.row, w.greatest)),
        };
        if wanted.is_err() {
            after = i.statistics;
            self.modelled[..n2].fill(0);
        }
        let seen = r.map(|f| (f.skip, number_of(f.rdpcm), f.column as usize, f.row as usize, f.greatest as i32)).map_err(Refusal::number);
        if seen != wanted
            || statistics != after
            || self.ours[..n2] != self.modelled[..n2]
            || self.ours[n2..i.room + 8].iter().any(|&v| v != HELD)
        {
            differ("list", i, format!("bins {bins:?}\nours {r:?} {statistics:?}, document 01 {wanted:?} {after:?}"));
        }
        *self.lists.entry(wanted.err().unwrap_or(0)).or_default() += 1;
        if let Ok(f) = r {
            self.written(i, bins, f, &after);
        }
    }

    /// A list that was read is what the writer makes of its block, in a room that it fills; one byte less is 12.
    fn written(&mut self, i: &Input, bins: &[u8], f: Found, after: &[u8; 4]) {
        let mut room = vec![255; bins.len() + 4];
        let (mut statistics, mut short) = (i.statistics, i.statistics);
        let long = write_bins(i.params, &mut statistics, &self.ours[..i.room], f.skip, f.rdpcm, &mut room);
        if long != Ok(bins.len()) || room[..bins.len()] != *bins || room[bins.len()..] != [255; 4] || statistics != *after {
            differ("written", i, format!("bins {bins:?}\nwritten {long:?} {room:?} {statistics:?}"));
        }
        room.fill(255);
        let none = write_bins(i.params, &mut short, &self.ours[..i.room], f.skip, f.rdpcm, &mut room[..bins.len() - 1]);
        if none != Err(Refusal::ShortRoom) || room.iter().any(|&b| b != 255) || short != i.statistics {
            differ("written in too little room", i, format!("bins {bins:?}\nwritten {none:?}"));
        }
        self.written += 1;
    }
}
