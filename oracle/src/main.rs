//! The Rust that Bulmegart is a port of, unchanged, beside Bulmegart. See oracle/README.md.
#![allow(dead_code)]

/// The included files, and in their own modules what reads their private fields.
mod cabac {
    pub mod contexts {
        include!(concat!(env!("PEER"), "/src--src--cabac--contexts.rs.txt"));
    }
    pub mod engine {
        include!(concat!(env!("PEER"), "/src--src--cabac--engine.rs.txt"));

        /// A decoder in any state.
        pub fn at(data: &[u8], range: u32, offset: u32, position: usize) -> CabacDecoder<'_> {
            let mut d = CabacDecoder { range, offset, data: Cow::Borrowed(data), byte_pos: position / 8, bitbuf: 0, bitcnt: 0 };
            if position % 8 != 0 {
                d.read_bits(position as u32 % 8);
            }
            d
        }

        /// Bits drawn from the payload.
        pub fn place(d: &CabacDecoder<'_>) -> usize {
            8 * d.byte_pos - d.bitcnt as usize
        }

        /// rangeLPS and the next states of the normative tables.
        pub fn tables(state: usize, class: usize) -> (u32, u8, u8) {
            (RANGE_TAB_LPS[state][class] as u32, TRANS_IDX_MPS[state], TRANS_IDX_LPS[state])
        }
    }
    pub mod residual_full {
        include!(concat!(env!("PEER"), "/src--src--cabac--residual_full.rs.txt"));
    }
}
/// The same files as docs/BENCH.md has them: its own contexts on our engine and block reader.
mod swapped {
    pub mod contexts {
        include!(concat!(env!("OUT_DIR"), "/contexts.rs"));
    }
    pub mod engine {
        pub use bulmegart::swap::engine::*;
    }
    pub mod residual_full {
        pub use bulmegart::swap::residual_full::*;
    }
}
mod error {
    include!(concat!(env!("PEER"), "/src--src--error.rs.txt"));
}

mod bench;
mod book;
mod cases;
mod compare;
mod depend;
mod figures;
mod h264;
mod inputs;
mod kept;
mod made;
mod model;
mod pack;
mod peer;
mod plain;
mod random;
mod sample;
mod scale;
mod tray;
mod swap;

fn main() {
    let words: Vec<String> = std::env::args().skip(1).collect();
    let words: Vec<&str> = words.iter().map(String::as_str).collect();
    match words[..] {
        ["compare", vectors, share, seed] => inputs::run(vectors, share.parse().unwrap(), seed.parse().unwrap()),
        ["cases", vectors] => cases::run(vectors),
        ["plain", vectors, seed] => plain::run(vectors, seed.parse().unwrap()),
        ["trays", vectors, rounds, seed] => tray::run(vectors, rounds.parse().unwrap(), seed.parse().unwrap()),
        ["tray-bench", rounds] => bench::trays(rounds.parse().unwrap()),
        ["pack", vectors, count, seed] => pack::run(vectors, count.parse().unwrap(), seed.parse().unwrap()),
        ["packsample", vectors, seed] => pack::sample(vectors, seed.parse().unwrap()),
        ["packbench", vectors, rounds] => pack::bench(vectors, rounds.parse().unwrap()),
        ["swap", vectors, sequences, seed] => swap::run(vectors, sequences.parse().unwrap(), seed.parse().unwrap()),
        ["swapspeed", vectors, rounds] => swap::speed(vectors, rounds.parse().unwrap()),
        ["kept", rounds] => kept::speed(rounds.parse().unwrap()),
        ["h264", vectors, runs, seed] => h264::run(vectors, &mut random::Random::new(seed.parse().unwrap()), runs.parse().unwrap()),
        ["sample", seed] => sample::write(seed.parse().unwrap()),
        ["frame", values, qp, log2, seed] => sample::frame(values, qp.parse().unwrap(), log2.parse().unwrap(), seed.parse().unwrap()),
        ["book", books, rounds] => book::run(books, rounds.parse().unwrap()),
        ["bench", vectors, rounds] => bench::run(vectors, rounds.parse().unwrap(), None),
        ["bench", vectors, rounds, side, row] => bench::run(vectors, rounds.parse().unwrap(), Some((side, row.parse().unwrap()))),
        _ => {
            eprintln!("one of: compare VECTORS SHARE SEED, cases VECTORS, plain VECTORS SEED, trays VECTORS ROUNDS SEED, tray-bench ROUNDS, pack VECTORS COUNT SEED, packsample VECTORS SEED, packbench VECTORS ROUNDS,");
            eprintln!("kept ROUNDS, book BOOKS ROUNDS, h264 VECTORS RUNS SEED, swap VECTORS SEQUENCES SEED, swapspeed VECTORS ROUNDS, bench VECTORS ROUNDS [ours|rust ROW], sample SEED, frame VALUES QP LOG2 SEED (oracle/README.md)");
            std::process::exit(2);
        }
    }
}
