//! Request (v)'s cases: a kept block through its operations, by the archive.
use crate::inputs::hex;
use crate::sample::levels as levels_text;
use bulmegart::summary::{KeptBlock, RECORDS};
use bulmegart::{CONTEXTS, Params, Refusal, STATISTICS, start};
use std::collections::BTreeMap;
use std::time::Instant;

/// `place=level` parted by commas.
pub fn placed(text: &str, places: usize) -> Vec<i32> {
    let mut levels = vec![0; places];
    for (place, level) in text.split(',').filter_map(|l| l.split_once('=')) {
        levels[place.parse::<usize>().unwrap()] = level.parse().unwrap();
    }
    levels
}

fn number(r: Result<(), Refusal>) -> u32 {
    r.map_or_else(Refusal::number, |()| 0)
}

/// Another block, set level by level.
fn copy(block: &mut KeptBlock, words: &[&str]) -> Result<(), Refusal> {
    let (log2, bits) = (words[1].parse().unwrap(), words[2].parse().unwrap());
    let mut other = KeptBlock::new(log2, bits)?;
    for (place, level) in placed(words[3], 1 << (2 * log2)).into_iter().enumerate().filter(|(_, level)| *level != 0) {
        other.set_level(place, level).expect("a copied block's levels are in its range");
    }
    block.copy_in(&other)
}

fn read(block: &mut KeptBlock, payload: &[u8], params: Params) -> Result<(), Refusal> {
    let (mut contexts, mut statistics) = ([64; CONTEXTS], [0; STATISTICS]);
    block.read_kept(payload, start(payload)?, &mut contexts, &mut statistics, params).map(|_| ())
}

/// What a fresh count gives must be what is kept, after every operation.
fn is_true(block: &KeptBlock) -> bool {
    let mut fresh = block.clone();
    fresh.recount().unwrap();
    fresh == *block
}

pub fn answer(asked: &BTreeMap<&str, &str>, params: impl Fn(&str) -> Params) -> String {
    let mut block = match KeptBlock::new(asked["log2"].parse().unwrap(), asked["t"].parse().unwrap()) {
        Ok(block) => block,
        Err(r) => return format!("answer={}", r.number()),
    };
    let mut steps = Vec::new();
    for op in asked["ops"].split('|') {
        let words: Vec<&str> = op.split(':').collect();
        let r = match words[0] {
            "set" => block.set_level(words[1].parse().unwrap(), words[2].parse().unwrap()),
            "clear" => block.clear_kept(),
            "copy" => copy(&mut block, &words),
            "read" => read(&mut block, &hex(words[1]), params(words[2])),
            "list" => block.read_kept_bins(&hex(words[1]), &mut [0; STATISTICS], params(words[2])).map(|_| ()),
            other => panic!("an operation that is not known: {other}"),
        };
        if !is_true(&block) {
            return format!("not what a fresh count gives after {op}");
        }
        let w = block.whole();
        steps.push(format!("{}:{}:{}:{:x}", number(r), w.count, w.sum, w.map));
    }
    let subs: Vec<String> = (0..RECORDS).filter_map(|s| block.sub_block(s).filter(|r| r.0 > 0).map(|(count, sum)| format!("{s}:{count}:{sum}"))).collect();
    let subs = if subs.is_empty() { "-".into() } else { subs.join(";") };
    format!("steps={} subs={subs} levels={}", steps.join(";"), levels_text(block.levels()))
}

/// The best time of a call in nanoseconds: setting one level beside a fresh count, in a block of each size with every place filled.
pub fn speed(rounds: usize) {
    for log2 in 2..=5 {
        let mut block = KeptBlock::new(log2, 15).unwrap();
        let places = block.levels().len();
        for place in 0..places {
            block.set_level(place, place as i32 - 500).unwrap();
        }
        let mut best = [f64::MAX; 2];
        for round in 0..rounds {
            let t = Instant::now();
            for place in 0..places {
                block.set_level((place * 37 + round) % places, (place % 9) as i32).unwrap();
            }
            best[0] = best[0].min(t.elapsed().as_nanos() as f64 / places as f64);
            let t = Instant::now();
            for _ in 0..16 {
                block.recount().unwrap();
            }
            best[1] = best[1].min(t.elapsed().as_nanos() as f64 / 16.0);
        }
        println!("{0}x{0}: setting a level {1:.0} ns, a fresh count {2:.0} ns", 1 << log2, best[0], best[1]);
    }
}
