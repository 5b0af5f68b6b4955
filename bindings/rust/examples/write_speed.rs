//! Blocks per second of `write_bins` beside `read_bins`, on the recorded blocks of a file of vectors.
//!
//!     cargo run --release --example write_speed VECTORS/hevc.txt ROUNDS
use bulmegart::*;
use std::time::Instant;

struct Recorded {
    params: Params,
    statistics: [u8; 4],
    list: Vec<u8>,
    levels: Vec<i32>,
    found: Found,
}

fn bytes(hex: &str) -> Vec<u8> {
    (0..hex.len() / 2).map(|k| u8::from_str_radix(&hex[2 * k..2 * k + 2], 16).unwrap()).collect()
}

/// A recorded list has a byte for each entry, 240 and above for what is no decision.
fn wide(list: &[u8]) -> Vec<u8> {
    let entry = |&b: &u8| if b < 240 { b as u16 } else { BYPASS_ENTRY + (b - 240) as u16 };
    list.iter().flat_map(|b| entry(b).to_le_bytes()).collect()
}

fn recorded(line: &str) -> Option<Recorded> {
    let f: Vec<&str> = line.split(' ').collect();
    if f[0] != "B" || f[23] != "0" {
        return None;
    }
    let n = |k: usize| f[k].parse::<u32>().unwrap();
    let on = |k: usize| f[k] == "1";
    let params = Params {
        log2: n(2),
        luma: on(3),
        scan: n(4),
        depth: n(15),
        hiding: on(5),
        skip_allowed: on(6),
        lossless: on(7),
        persistent: on(8),
        skip_context: on(9),
        explicit_rdpcm: on(10),
        implicit_rdpcm: on(11),
        inter: on(12),
        aligning: on(13),
        extended: on(14),
    };
    let statistics: [u8; 4] = bytes(f[21]).try_into().unwrap();
    let list = wide(&bytes(f[22]));
    let mut levels = vec![0; 1024];
    let found = read_bins(&list, &mut statistics.clone(), params, &mut levels).unwrap();
    Some(Recorded { params, statistics, list, levels, found })
}

fn main() {
    let args: Vec<String> = std::env::args().collect();
    let text = std::fs::read_to_string(&args[1]).unwrap();
    let blocks: Vec<Recorded> = text.lines().filter_map(recorded).collect();
    let (mut room, mut levels) = (vec![0; longest_list(5)], vec![0; 1024]);
    let (mut reading, mut writing) = (f64::MAX, f64::MAX);
    for _ in 0..args[2].parse::<u32>().unwrap() {
        let start = Instant::now();
        for b in &blocks {
            read_bins(&b.list, &mut b.statistics.clone(), b.params, &mut levels).unwrap();
        }
        reading = reading.min(start.elapsed().as_secs_f64());
        let start = Instant::now();
        for b in &blocks {
            let n = write_bins(b.params, &mut b.statistics.clone(), &b.levels, b.found.skip, b.found.rdpcm, &mut room).unwrap();
            assert_eq!(n, b.list.len());
        }
        writing = writing.min(start.elapsed().as_secs_f64());
    }
    let rate = |seconds: f64| (blocks.len() as f64 / seconds) as u64;
    println!("{} blocks; read_bins {} blocks/s, write_bins {} blocks/s, ratio {:.2}", blocks.len(), rate(reading), rate(writing), reading / writing);
}
