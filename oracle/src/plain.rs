//! Plain cameras: recorded and random blocks through the plain functions, beside the full ones and what the text of request (xi) says is plain.
use crate::inputs::{self, Real, real_blocks};
use crate::random::Random;
use bulmegart::plain::{Plain, plain_params, read_bins_plain, residual_coding_plain, write_bins_plain};
use bulmegart::{CONTEXTS, Found, Params, Rdpcm, Refusal, STATISTICS, State, longest_list, read_bins, residual_coding, start, write_bins};
use std::collections::BTreeMap;

const MARK: i32 = 0x5a5a_5a5a;
const HELD: u8 = 0xa5;
const RANDOM: u32 = 400_000;

/// Request (xi)'s words.
fn is_plain(p: &Params, statistics: &[u8; STATISTICS]) -> bool {
    let extensions = [p.persistent, p.skip_context, p.explicit_rdpcm, p.implicit_rdpcm, p.aligning, p.extended];
    p.depth == 8 && (p.scan == 0 || p.log2 <= 3) && !extensions.contains(&true) && statistics.iter().all(|&s| s == 0)
}

/// 4, of parameters and places.
fn out_of_limits(p: &Params, places: usize) -> bool {
    !(2..=5).contains(&p.log2) || p.scan > 2 || !(8..=16).contains(&p.depth) || places < 1 << (2 * p.log2)
}

/// What a reader answers and leaves.
type Left = (Result<(Found, State), Refusal>, [u8; CONTEXTS], [u8; STATISTICS], Vec<i32>);
type ListLeft = (Result<Found, Refusal>, [u8; STATISTICS], Vec<i32>);
type WriteLeft = (Result<usize, Refusal>, [u8; STATISTICS], Vec<u8>);

fn read(plain: bool, r: &Real, places: usize) -> Left {
    let (mut contexts, mut statistics, mut levels) = (r.contexts, r.statistics, vec![MARK; places]);
    let reader = if plain { residual_coding_plain } else { residual_coding };
    let answer = reader(&r.payload, r.state, &mut contexts, &mut statistics, r.params, &mut levels);
    (answer, contexts, statistics, levels)
}

fn listed(plain: bool, list: &[u8], r: &Real, places: usize) -> ListLeft {
    let (mut statistics, mut levels) = (r.statistics, vec![MARK; places]);
    let reader = if plain { read_bins_plain } else { read_bins };
    let answer = reader(list, &mut statistics, r.params, &mut levels);
    (answer, statistics, levels)
}

fn written(plain: bool, r: &Real, levels: &[i32], skip: bool, rdpcm: Rdpcm, room: usize) -> WriteLeft {
    let (mut statistics, mut room) = (r.statistics, vec![HELD; room]);
    let writer = if plain { write_bins_plain } else { write_bins };
    let answer = writer(r.params, &mut statistics, levels, skip, rdpcm, &mut room);
    (answer, statistics, room)
}

/// How often each number was given, by function.
#[derive(Default)]
struct Seen(BTreeMap<(&'static str, u32), u32>);

impl Seen {
    fn count<T>(&mut self, name: &'static str, answer: &Result<T, Refusal>) {
        *self.0.entry((name, answer.as_ref().err().map_or(0, |r| r.number()))).or_default() += 1;
    }
}

/// One block by every plain function: as the full one where it is plain or refused before 24, else 24 with nothing touched.
fn block(r: &Real, places: usize, seen: &mut Seen) {
    let plain = is_plain(&r.params, &r.statistics);
    let limits = out_of_limits(&r.params, places);
    let short = r.payload.len() < 2 || r.payload.len() > 1 << 24;
    let (full, ours) = (read(false, r, places), read(true, r, places));
    let wanted = if plain || short || limits { full } else { (Err(Refusal::NotPlain), r.contexts, r.statistics, vec![MARK; places]) };
    assert_eq!(ours, wanted, "{:?} {:?}", r.params, r.statistics);
    seen.count("residual_coding_plain", &ours.0);
    // what was read, or a block of little, written and read again
    let area = 1 << (2 * r.params.log2.min(5));
    let (levels, skip, rdpcm) = match &wanted {
        (Ok((f, _)), _, _, levels) => (levels.clone(), f.skip, f.rdpcm),
        _ => ((0..places).map(|k| if k == area / 2 { -3 } else { 0 }).collect(), r.params.hiding, if r.params.inter { Rdpcm::Vertical } else { Rdpcm::None }),
    };
    for room in [longest_list(r.params.log2), 6] {
        let (full, ours) = (written(false, r, &levels, skip, rdpcm, room), written(true, r, &levels, skip, rdpcm, room));
        let wanted = if plain || limits { full } else { (Err(Refusal::NotPlain), r.statistics, vec![HELD; room]) };
        assert_eq!(ours, wanted, "{:?} {:?}", r.params, r.statistics);
        seen.count("write_bins_plain", &ours.0);
        let list = &ours.2[..ours.0.unwrap_or(4.min(room))];
        for list in [list, &list[..list.len() - list.len().min(2)]] {
            let (full, ours) = (listed(false, list, r, places), listed(true, list, r, places));
            let wanted = if plain || limits { full } else { (Err(Refusal::NotPlain), r.statistics, vec![MARK; places]) };
            assert_eq!(ours, wanted, "{:?} {:?}", r.params, r.statistics);
            seen.count("read_bins_plain", &ours.0);
        }
    }
}

/// A block with one thing that is not plain, number k of 17.
fn bent(r: &Real, k: u32) -> Real {
    let mut p = r.params;
    let mut statistics = r.statistics;
    match k {
        0 => p.depth = 9,
        1 => p.depth = 17,
        2 => (p.log2, p.scan) = (4, 1),
        3 => p.scan = 3,
        4 => p.persistent = true,
        5 => p.skip_context = true,
        6 => p.explicit_rdpcm = true,
        7 => p.implicit_rdpcm = true,
        8 => p.aligning = true,
        9 => p.extended = true,
        _ => statistics[k as usize % 4] = if k < 14 { 1 } else { 85 },
    }
    Real { params: p, state: r.state, payload: r.payload.clone(), contexts: r.contexts, statistics }
}

pub fn run(vectors: &str, seed: u64) {
    let mut seen = Seen::default();
    let (mut plain, mut all) = (0u32, 0u32);
    for name in ["hevc.txt", "rext.txt", "forced.txt"] {
        for (k, r) in real_blocks(vectors, &[name]).iter().enumerate() {
            let area = 1 << (2 * r.params.log2);
            block(r, area + k % 3, &mut seen);
            all += 1;
            if is_plain(&r.params, &r.statistics) {
                plain += 1;
                block(&bent(r, k as u32 % 18), area.max(256), &mut seen);
            }
        }
        println!("{name}: {plain} of {all} recorded blocks so far are plain");
    }
    let mut r = Random::new(seed);
    for _ in 0..RANDOM {
        let mut params = inputs::params(&mut r);
        if r.chance(128) {
            params = Params { persistent: false, skip_context: false, explicit_rdpcm: false, implicit_rdpcm: false, aligning: false, extended: false, depth: 8, ..params };
        }
        let payload: Vec<u8> = (0..r.below(40)).map(|_| r.below(256) as u8).collect();
        let most = if r.chance(8) { 129 } else { 128 };
        let contexts = [0; CONTEXTS].map(|_| r.below(most) as u8);
        let statistics = if r.chance(200) { [0; STATISTICS] } else { [0; STATISTICS].map(|_| r.below(90) as u8) };
        let state = start(&payload).unwrap_or(State { range: 300, offset: r.below(400) as u32, position: 3, ended: r.chance(64), past: 0 });
        let area = 1 << (2 * params.log2.min(5));
        let places = if r.chance(8) { r.below(area) as usize } else { area as usize };
        block(&Real { params, state, payload, contexts, statistics }, places, &mut seen);
    }
    for ((name, number), count) in &seen.0 {
        println!("{name}: {number} {count} times");
    }
    println!("{} records of parameters", records());
}

/// Every record near the limits: what is made is what the text says, and it passes 4 and 24.
fn records() -> u32 {
    let mut count = 0;
    for (log2, scan, flags) in (0..8).flat_map(|l| (0..5).flat_map(move |s| (0..32).map(move |f| (l, s, f)))) {
        let on = |k: u32| flags >> k & 1 == 1;
        let said = Plain { log2, scan, luma: on(0), hiding: on(1), skip_allowed: on(2), lossless: on(3), inter: on(4) };
        let params = Params { scan, luma: on(0), hiding: on(1), skip_allowed: on(2), lossless: on(3), inter: on(4), ..Params::plain(log2) };
        let wanted = match () {
            _ if out_of_limits(&params, 1024) => Err(Refusal::BadParameter),
            _ if !is_plain(&params, &[0; STATISTICS]) => Err(Refusal::NotPlain),
            _ => Ok(params),
        };
        assert_eq!(plain_params(said), wanted, "{said:?}");
        if let Ok(made) = wanted {
            let mut levels = vec![0; 1 << (2 * log2)];
            levels[0] = 1;
            assert!(write_bins_plain(made, &mut [0; STATISTICS], &levels, false, Rdpcm::None, &mut [0; 80]).is_ok(), "{said:?}");
        }
        count += 1;
    }
    count
}
