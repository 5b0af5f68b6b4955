//! A book of real frames: frames a second from text to answers, beside the reader alone and the Rust on the same frames.
use crate::bench::now;
use crate::cabac::contexts::{ContextSet, CtxModel};
use crate::cabac::engine::CabacDecoder;
use crate::inputs::hex;
use crate::peer;
use bulmegart::{Book, CONTEXTS, Params, init_contexts, residual_coding, start};
use std::hint::black_box;

struct Frame {
    params: Params,
    qp: u8,
    values: [u8; CONTEXTS],
    payload: Vec<u8>,
}

fn frame(line: &str) -> Frame {
    let b = hex(line);
    let params = Params { luma: b[1] == 1, scan: b[2] as u32, depth: b[3] as u32, hiding: b[5] == 1, ..Params::plain(b[0] as u32) };
    Frame { params, qp: b[4], values: b[8..138].try_into().unwrap(), payload: b[138..].to_vec() }
}

/// Text in, answers out, as the program does it: pieces of 4,096 bytes.
#[inline(never)]
fn book(text: &[u8], answers: &mut Vec<u8>) -> u64 {
    answers.clear();
    let mut book = Book::new();
    for piece in text.chunks(4096) {
        book.feed(piece, answers);
    }
    book.finish(answers)[0]
}

/// The frames as bytes: contexts, start, block.
#[inline(never)]
fn reader(frames: &[Frame], times: usize, levels: &mut [i32]) -> u64 {
    let mut sum = 0;
    for _ in 0..times {
        for f in frames {
            let (mut contexts, mut statistics) = ([0; CONTEXTS], [0; 4]);
            init_contexts(&mut contexts, &mut statistics, &f.values, f.qp).unwrap();
            let (found, _) = residual_coding(&f.payload, start(&f.payload).unwrap(), &mut contexts, &mut statistics, f.params, levels).unwrap();
            sum += found.greatest as u64;
        }
    }
    sum
}

/// The same by the Rust; what is no part of the residual is set up once.
#[inline(never)]
fn rust(frames: &[Frame], times: usize, set: &mut ContextSet, levels: &mut [i32]) -> u64 {
    let mut sum = 0;
    for _ in 0..times {
        for f in frames {
            let mut contexts = [0; CONTEXTS];
            for (c, v) in contexts.iter_mut().zip(f.values) {
                *c = CtxModel::init(v, f.qp).state;
            }
            peer::lend(set, &contexts, &[0; 4]);
            let mut dec = CabacDecoder::new_borrowed(&f.payload).unwrap();
            sum += peer::block(&mut dec, set, &f.params, levels).greatest as u64;
        }
    }
    sum
}

/// The accepted frames of BOOKS' real books, over and over to about 100,000.
pub fn run(books: &str, rounds: u32) {
    let mut lines = Vec::new();
    for name in ["real", "real-large"] {
        let text = std::fs::read_to_string(format!("{books}/{name}.book")).expect("the real books");
        let answers = std::fs::read_to_string(format!("{books}/{name}.out")).unwrap();
        lines.extend(text.lines().zip(answers.lines()).filter(|(_, a)| a.contains(" ok ")).map(|(l, _)| l.to_string()));
    }
    let frames: Vec<Frame> = lines.iter().map(|l| frame(l)).collect();
    let times = 100_000_usize.div_ceil(frames.len());
    let count = (frames.len() * times) as f64;
    let text = format!("{}\n", lines.join("\n")).repeat(times).into_bytes();
    let (mut answers, mut levels, mut set) = (Vec::new(), vec![0; 1024], peer::empty_set());
    assert_eq!(reader(&frames, 1, &mut levels), rust(&frames, 1, &mut set, &mut levels));
    let mut best = [i64::MAX; 3];
    for _ in 0..rounds {
        let from = now();
        assert_eq!(book(black_box(&text), &mut answers), count as u64);
        let a = now();
        black_box(reader(black_box(&frames), times, &mut levels));
        let b = now();
        black_box(rust(black_box(&frames), times, &mut set, &mut levels));
        let c = now();
        for (k, t) in [a - from, b - a, c - b].into_iter().enumerate() {
            best[k] = best[k].min(t);
        }
    }
    println!("{count} frames, {} bytes of text, {} of answers", text.len(), answers.len());
    for (name, t) in ["the book, text to answers", "our reader alone", "the Rust"].iter().zip(best) {
        println!("{name}: {:.0} frames/s, {:.2} µs a frame", count / (t as f64 / 1e9), t as f64 / 1e3 / count);
    }
}
