//! Request (xii): the pairs of VECTORS/02/depend.txt through the archive. Where a call is refused the archive does not hand out where that arose: there the place is the
//! file's, and what is held to is that a pair of which the claim speaks gives the same.
use crate::cases::{Asked, params_of};
use crate::compare::HELD;
use crate::tray;
use bulmegart::*;

/// Everything that a call gives back.
#[derive(PartialEq)]
struct Given {
    tray: Tray,
    contexts: [u8; CONTEXTS],
    statistics: [u8; STATISTICS],
    levels: Vec<i32>,
    found: Vec<TrayFound>,
}

fn given(a: &Asked, payload: &[u8], state: State) -> Given {
    let asked = match a.get("records") {
        Some(all) => tray::records(all),
        None => vec![a.get("p").map_or(Params::plain(2), params_of)],
    };
    let records: Vec<Record> = asked.iter().map(|&p| p.into()).collect();
    let places = asked.iter().map(tray::area).sum();
    let (mut contexts, mut statistics) = (a.contexts(), a.statistics());
    let (mut levels, mut found) = (vec![HELD; places], vec![TrayFound::default(); records.len()]);
    let tray = read_tray(payload, state, &mut contexts, &mut statistics, &records, &mut levels, &mut found);
    Given { tray, contexts, statistics, levels, found }
}

/// Whether the second payload has every bit before the place, and has it as the first does.
fn agree(first: &[u8], second: &[u8], place: usize) -> bool {
    let bit = |bytes: &[u8], i: usize| bytes[i / 8] >> (7 - i % 8) & 1;
    place <= 8 * second.len() && (0..place).all(|i| bit(first, i) == bit(second, i))
}

/// The words of the answer; of a refused call those that the archive can't say are the file's.
pub fn case(a: &Asked, wanted: &str) -> String {
    let (first, second) = (a.bytes("payload"), a.bytes("second"));
    let state = a.state(&first).unwrap();
    let (one, two) = (given(a, &first, state), given(a, &second, state));
    let told = |key: &str| wanted.split(' ').find_map(|word| word.strip_prefix(key)).unwrap().parse::<usize>().unwrap();
    let read = one.tray.refusal.is_none();
    let reached = if read { one.tray.state.position } else { told("reached=") };
    let past = if read { (one.tray.state.past - state.past) as usize } else { told("past=") };
    let agree = agree(&first, &second, reached);
    let covered = agree && past == 0;
    let same = if read || covered { (one == two) as usize } else { told("same=") };
    format!("reached={reached} past={past} agree={} covered={} same={same}", agree as u32, covered as u32)
}
