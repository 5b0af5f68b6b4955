//! Request (x)'s cases: figures by the archive, added as the case says; and the same blocks by two benches and merged.
use crate::kept::placed;
use bulmegart::Refusal;
use bulmegart::figures::Figures;
use std::collections::BTreeMap;

fn number(r: Result<(), Refusal>) -> u32 {
    r.map_or_else(Refusal::number, |()| 0)
}

/// `K*op`, or once.
fn times(op: &str) -> (usize, &str) {
    match op.split_once('*') {
        Some((count, op)) => (count.parse().unwrap(), op),
        None => (1, op),
    }
}

fn add(figures: &mut Figures, words: &[&str], levels: &[i32]) -> u32 {
    number(match words[0] {
        "b" => figures.add_block(words[1].parse().unwrap(), levels, words[2].parse().unwrap()),
        "n" => figures.add_refusal(words[1].parse().unwrap()),
        other => panic!("an operation that is not known: {other}"),
    })
}

/// Numbers in a row as K*N.
fn runs(numbers: &[u32]) -> String {
    let parts = numbers.chunk_by(|a, b| a == b);
    parts.map(|run| if run.len() == 1 { run[0].to_string() } else { format!("{}*{}", run.len(), run[0]) }).collect::<Vec<_>>().join(",")
}

fn listed(all: Vec<String>, mark: &str) -> String {
    if all.is_empty() { "-".into() } else { all.join(mark) }
}

pub fn answer(asked: &BTreeMap<&str, &str>) -> String {
    let log2 = asked["log2"].parse().unwrap();
    let mut figures = match Figures::begin_figures(log2) {
        Ok(figures) => figures,
        Err(r) => return format!("answer={}", r.number()),
    };
    // what another bench adds: every second one
    let (mut left, mut right) = (figures.clone(), figures.clone());
    let mut numbers = Vec::new();
    for op in asked["ops"].split('|') {
        let (count, op) = times(op);
        let words: Vec<&str> = op.splitn(4, ':').collect();
        let levels = words.get(3).map_or(Vec::new(), |text| placed(text, 1 << (2 * words[1].parse::<u32>().unwrap())));
        for _ in 0..count {
            numbers.push(add(&mut figures, &words, &levels));
            if numbers[numbers.len() - 1] == 0 {
                add(if numbers.len() % 2 == 0 { &mut left } else { &mut right }, &words, &levels);
            }
        }
    }
    left.merge_figures(&right).unwrap();
    if left != figures {
        return "two benches merged differ from one".into();
    }
    let places = (0..1 << (2 * log2)).map(|p| (p, figures.at_place(p).unwrap())).filter(|(_, f)| f.blocks > 0);
    let at = listed(places.map(|(p, f)| format!("{p}:{}:{}:{}", f.blocks, f.sum, f.greatest)).collect(), ";");
    let tallies = (1..=24).map(|n| (n, figures.tally_of(n).unwrap())).filter(|t| t.1 > 0);
    let tallies = listed(tallies.map(|(n, t)| format!("{n}:{t}")).collect(), ",");
    format!("numbers={} accepted={} past={} at={at} tallies={tallies}", runs(&numbers), figures.accepted(), figures.past())
}
