//! Request (xii): where a block's reading ends, accepted, refused by 7 and by 8, and by a check, through the archive.
use bulmegart::*;

fn ends(payload: &[u8], state: State, params: Params, places: usize) -> (State, u32) {
    reached(payload, state, &[64; CONTEXTS], &[0; STATISTICS], params, &vec![7; places])
}

#[test]
fn accepted_as_the_reader_hands_it_back() {
    let payload = [0xfe, 0x80];
    let state = start(&payload).unwrap();
    let (mut contexts, mut statistics, mut levels) = ([64; CONTEXTS], [0; STATISTICS], [0; 16]);
    let (_, next) = residual_coding(&payload, state, &mut contexts, &mut statistics, Params::plain(2), &mut levels).unwrap();
    assert_eq!(ends(&payload, state, Params::plain(2), 16), (next, 0));
    assert_eq!(next.position, 13);
    let marked = State { past: 65_535, ..state };
    assert_eq!(ends(&payload, marked, Params::plain(2), 16), (State { past: 65_535, ..next }, 0));
}

#[test]
fn refused_by_8_and_7() {
    let payload = [0xca, 0x7f, 0xff, 0xff, 0xff, 0xff, 0x80];
    let (state, past) = ends(&payload, start(&payload).unwrap(), Params::plain(2), 16);
    assert_eq!((state.position, past), (49, 0));
    let payload = [0x00, 0x07];
    let aligning = Params { aligning: true, ..Params::plain(2) };
    let (state, past) = ends(&payload, start(&payload).unwrap(), aligning, 16);
    assert_eq!((state, past), (State { range: 448, offset: 375, position: 16, ended: false, past: 22 }, 22));
}

#[test]
fn refused_by_a_check() {
    let payload = [0xfe, 0x80];
    let state = start(&payload).unwrap();
    assert_eq!(ends(&payload, state, Params::plain(2), 15), (state, 0));
    assert_eq!(ends(&payload[..1], state, Params::plain(2), 16), (state, 0));
    let ended = State { ended: true, past: 3, ..state };
    assert_eq!(ends(&payload, ended, Params::plain(2), 16), (ended, 0));
}
