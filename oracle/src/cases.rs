//! The cases of VECTORS/02, which another hand made from document 02, through the archive: each line's answer is written anew and compared as text.
use crate::inputs::hex;
use crate::sample::{hex as text, levels as levels_text};
use bulmegart::*;
use std::collections::BTreeMap;

/// What a place that is lent holds before a call.
const MARK: i32 = 0x5a5a_5a5a;
pub const HELD: u8 = 0xa5;
const FILES: [&str; 9] = ["engine.txt", "extents.txt", "cross.txt", "plain.txt", "tray.txt", "depend.txt", "pack.txt", "kept.txt", "figures.txt"];
/// Requests whose functions the archive doesn't have yet.
const LATER: [&str; 0] = [];

/// Numbers parted by commas.
fn listed<const N: usize>(text: &str) -> [usize; N] {
    let all: Vec<usize> = text.split(',').map(|v| v.parse().unwrap()).collect();
    all.try_into().unwrap()
}

/// What stands left of the arrow.
pub struct Asked<'a>(BTreeMap<&'a str, &'a str>);

impl Asked<'_> {
    pub fn get(&self, key: &str) -> Option<&str> {
        self.0.get(key).copied()
    }

    pub fn number(&self, key: &str, otherwise: i64) -> i64 {
        self.get(key).map_or(otherwise, |v| v.parse().unwrap())
    }

    fn numbers<const N: usize>(&self, key: &str) -> Option<[usize; N]> {
        Some(listed(self.get(key)?))
    }

    pub fn bytes(&self, key: &str) -> Vec<u8> {
        hex(self.get(key).unwrap())
    }

    pub fn contexts(&self) -> [u8; CONTEXTS] {
        self.get("ctx").map_or([64; CONTEXTS], |v| hex(v).try_into().unwrap())
    }

    pub fn statistics(&self) -> [u8; STATISTICS] {
        self.get("stats").map_or([0; STATISTICS], |v| hex(v).try_into().unwrap())
    }

    /// As it is, or fresh from start.
    pub fn state(&self, payload: &[u8]) -> Result<State, Refusal> {
        match self.numbers::<5>("state") {
            Some([range, offset, position, ended, past]) => {
                Ok(State { range: range as u32, offset: offset as u32, position, ended: ended == 1, past: past as u32 })
            }
            None => start(payload),
        }
    }

    pub fn params(&self) -> Params {
        self.get("p").map_or(Params::plain(2), params_of)
    }

    fn area(&self) -> usize {
        1 << (2 * self.params().log2.min(5))
    }

    fn places(&self) -> usize {
        self.number("places", self.area() as i64) as usize
    }

    /// The list, in either form.
    pub fn list(&self) -> Vec<u8> {
        match self.get("list1") {
            Some(one) => hex(one).iter().flat_map(|&b| if b < 240 { b as u16 } else { BYPASS_ENTRY + b as u16 - 240 }.to_le_bytes()).collect(),
            None => self.bytes("list"),
        }
    }
}

/// The fourteen of the key `p`.
pub fn params_of(numbers: &str) -> Params {
    let p: Vec<u32> = numbers.split(',').map(|v| v.parse().unwrap()).collect();
    let on = |k: usize| p[k] == 1;
    Params {
        log2: p[0],
        luma: on(1),
        scan: p[2],
        hiding: on(3),
        skip_allowed: on(4),
        lossless: on(5),
        persistent: on(6),
        skip_context: on(7),
        explicit_rdpcm: on(8),
        implicit_rdpcm: on(9),
        inter: on(10),
        aligning: on(11),
        extended: on(12),
        depth: p[13],
    }
}

pub fn state_text(s: &State) -> String {
    format!("{},{},{},{},{}", s.range, s.offset, s.position, s.ended as u32, s.past)
}

pub fn changes(before: &[u8], after: &[u8]) -> String {
    let changed: Vec<String> = (0..before.len()).filter(|&k| before[k] != after[k]).map(|k| format!("{k}:{:02x}", after[k])).collect();
    if changed.is_empty() { "-".into() } else { changed.join(",") }
}

fn found_text(f: &Found) -> String {
    let rdpcm = crate::compare::number_of(f.rdpcm);
    format!("skip={} rdpcm={rdpcm} column={} row={} greatest={}", f.skip as u32, f.column, f.row, f.greatest)
}

/// What became of the lent places at a refusal; those past n·n are never changed.
fn memory(lent: &[i32], area: usize) -> &'static str {
    let (block, beyond) = lent.split_at(area.min(lent.len()));
    match () {
        _ if beyond.iter().any(|&v| v != MARK) => "changed beyond",
        _ if block.iter().all(|&v| v == MARK) => "untouched",
        _ if block.iter().all(|&v| v == 0) => "zero",
        _ => "changed",
    }
}

fn bins(answer: Result<(u32, State), Refusal>) -> Result<String, Refusal> {
    answer.map(|(value, s)| format!("value={value} state={}", state_text(&s)))
}

/// The answer's words behind the number, or the refusal with what became of what was lent.
fn answer(kind: &str, a: &Asked) -> Result<String, (Refusal, String)> {
    let bare = |r: Refusal| (r, String::new());
    let payload = a.get("payload").map(hex).unwrap_or_default();
    let state = a.state(&payload);
    let s = match (a.get("payload"), state) {
        (Some(_), Err(r)) => return Err((r, " at=start".into())),
        (_, s) => s.unwrap_or(State { range: 0, offset: 0, position: 0, ended: false, past: 0 }),
    };
    let count = a.number("count", 0) as u32;
    let component = a.number("component", 0) as u32;
    let (mut contexts, mut statistics) = (a.contexts(), a.statistics());
    match kind {
        "decision" => {
            let mut context = a.number("context", 0) as u8;
            let r = decode_bin(&payload, s, &mut context).map(|(bin, s)| (bin as u32, s));
            bins(r).map(|t| format!("{t} context={context}")).map_err(bare)
        }
        "bypass" => {
            let r = decode_bypass_bits(&payload, s, count);
            if count == 1 && r != decode_bypass(&payload, s).map(|(bin, s)| (bin as u32, s)) {
                return Ok("one bin is another".into());
            }
            bins(r).map_err(bare)
        }
        "raw" => bins(read_bits(&payload, s, count)).map_err(bare),
        "terminate" => bins(decode_terminate(&payload, s).map(|(bin, s)| (bin as u32, s))).map_err(bare),
        "align" => match (byte_align(&payload, s), rest(&payload, s)) {
            (Ok(next), Ok(left)) => Ok(format!("rest={} state={}", payload.len() - left.len(), state_text(&next))),
            (Err(r), Err(q)) if r == q => Err(bare(r)),
            other => Ok(format!("{other:?}")),
        },
        "restart" => restart(&payload, s).map(|s| format!("state={}", state_text(&s))).map_err(bare),
        "block" | "plainblock" => {
            let mut lent = vec![MARK; a.places()];
            let reader = if kind == "block" { residual_coding } else { plain::residual_coding_plain };
            match reader(&payload, s, &mut contexts, &mut statistics, a.params(), &mut lent) {
                Ok((f, next)) => Ok(format!(
                    "{} levels={} state={} changes={} stats={}",
                    found_text(&f),
                    levels_text(&lent[..a.area()]),
                    state_text(&next),
                    changes(&a.contexts(), &contexts),
                    text(&statistics)
                )),
                Err(r) if (contexts, statistics) == (a.contexts(), a.statistics()) => Err((r, format!(" memory={}", memory(&lent, a.area())))),
                Err(r) => Err((r, " contexts or statistics changed".into())),
            }
        }
        "list" | "plainlist" => {
            let mut lent = vec![MARK; a.places()];
            let reader = if kind == "list" { read_bins } else { plain::read_bins_plain };
            match reader(&a.list(), &mut statistics, a.params(), &mut lent) {
                Ok(f) => Ok(format!("{} levels={} stats={}", found_text(&f), levels_text(&lent[..a.area()]), text(&statistics))),
                Err(r) if statistics == a.statistics() => Err((r, format!(" memory={}", memory(&lent, a.area())))),
                Err(r) => Err((r, " statistics changed".into())),
            }
        }
        "write" | "plainwrite" => {
            let mut levels = vec![0; a.places()];
            for level in a.get("levels").unwrap().split(',').filter(|&l| l != "-") {
                let (place, value) = level.split_once(':').unwrap();
                levels[place.parse::<usize>().unwrap()] = value.parse().unwrap();
            }
            let rdpcm = [Rdpcm::None, Rdpcm::Horizontal, Rdpcm::Vertical][(a.number("rdpcm", -1) + 1) as usize];
            let mut room = vec![HELD; a.number("room", longest_list(a.params().log2) as i64) as usize];
            let writer = if kind == "write" { write_bins } else { plain::write_bins_plain };
            let r = writer(a.params(), &mut statistics, &levels, a.number("skip", 0) == 1, rdpcm, &mut room);
            written(r, &room, format!(" stats={}", text(&statistics)))
        }
        "init" => {
            let r = init_contexts(&mut contexts, &mut statistics, &a.bytes("values"), a.number("q", 0) as u8);
            r.map(|()| format!("ctx={}", text(&contexts))).map_err(bare)
        }
        "cross" => match read_scale(&payload, s, &mut contexts, component) {
            Ok((z, next)) => Ok(format!("scale={z} state={} changes={}", state_text(&next), changes(&a.contexts(), &contexts))),
            Err(r) if contexts == a.contexts() => Err(bare(r)),
            Err(r) => Err((r, " contexts changed".into())),
        },
        "crosslist" => read_scale_bins(&a.list(), component).map(|z| format!("scale={z}")).map_err(bare),
        "crosswrite" => {
            let mut room = vec![HELD; a.number("room", LONGEST_SCALE_LIST as i64 + 2) as usize];
            written(write_scale_bins(component, a.number("scale", 0) as i32, &mut room), &room, String::new())
        }
        "pack" => crate::pack::case(a),
        _ => panic!("a kind of case that is not known: {kind}"),
    }
}

/// The list at the front of the room, and nothing beyond it.
fn written(r: Result<usize, Refusal>, room: &[u8], more: String) -> Result<String, (Refusal, String)> {
    let length = r.unwrap_or(0);
    if room[length..].iter().any(|&b| b != HELD) {
        return Ok("room changed".into());
    }
    r.map(|n| format!("length={n} list={}{more}", text(&room[..n]))).map_err(|r| (r, String::new()))
}

pub fn run(vectors: &str) {
    let (mut kinds, mut wrong, mut later) = (BTreeMap::<(&str, String), (u32, u32)>::new(), 0, 0);
    for name in FILES {
        let lines = std::fs::read_to_string(format!("{vectors}/02/{name}")).unwrap_or_else(|_| panic!("VECTORS/02 has no {name}"));
        for line in lines.lines().filter(|l| !l.starts_with('#')) {
            let (asked, wanted) = line.split_once(" => ").unwrap();
            let (kind, keys) = asked.split_once(' ').unwrap();
            if LATER.contains(&kind) {
                later += 1;
                continue;
            }
            let asked = Asked(keys.split(' ').map(|word| word.split_once('=').unwrap()).collect());
            let ours = match kind {
                "tray" => crate::tray::case(&asked),
                "pair" => crate::depend::case(&asked, wanted),
                "kept" => crate::kept::answer(&asked.0, params_of),
                "figures" => crate::figures::answer(&asked.0),
                _ => match answer(kind, &asked) {
                    Ok(words) => format!("answer=0 {words}"),
                    Err((r, words)) => format!("answer={}{words}", r.number()),
                },
            };
            // where a refusal arose is not handed out
            let wanted = wanted.split(" reached=").next().unwrap();
            let seen = kinds.entry((name, kind.to_string())).or_default();
            seen.0 += 1;
            seen.1 += (["answer=0 ", "steps=", "numbers="].iter().any(|head| ours.starts_with(head)) || ours.ends_with("covered=1 same=1")) as u32;
            if ours != wanted {
                println!("DIFFERENCE: {line}\nours {ours}");
                wrong += 1;
            }
        }
    }
    for ((name, kind), (all, accepted)) in &kinds {
        println!("{name} {kind}: {all} cases, {accepted} of them accepted or covered");
    }
    println!("{} cases, {wrong} wrong; {later} of later requests left out", kinds.values().map(|c| c.0).sum::<u32>());
    if wrong > 0 {
        std::process::exit(1);
    }
}
