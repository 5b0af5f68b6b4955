//! Plain cameras: what is plain is answered as by the full functions, the rest by 24, behind 4 and before 3.
use bulmegart::plain::*;
use bulmegart::Refusal::*;
use bulmegart::*;

const PAYLOAD: [u8; 3] = [0x75, 0xff, 0x80];
const LIST: [u8; 18] = [1, 0, 2, 0, 36, 0, 77, 0, 72, 0, 170, 0, 172, 0, 4, 1, 5, 1];

/// The number of each of the three functions, and that nothing is touched by a refusal before reading.
fn numbers(payload: &[u8], state: State, statistics: [u8; 4], params: Params, levels: &[i32]) -> [u32; 3] {
    let number = |r: Result<(), Refusal>| r.map_or_else(|r| r.number(), |()| 0);
    let (mut contexts, mut after, mut lent, mut room) = ([64; CONTEXTS], statistics, [7; 1024], [0xa5; 64]);
    let block = number(residual_coding_plain(payload, state, &mut contexts, &mut after, params, &mut lent).map(|_| ()));
    if ![0, 8].contains(&block) {
        assert_eq!((contexts, lent), ([64; CONTEXTS], [7; 1024]));
    }
    lent = [7; 1024];
    let list = number(read_bins_plain(&LIST, &mut after, params, &mut lent).map(|_| ()));
    if ![0, 8, 13].contains(&list) {
        assert_eq!(lent, [7; 1024]);
    }
    let write = number(write_bins_plain(params, &mut after, levels, false, Rdpcm::None, &mut room).map(|_| ()));
    if write != 0 {
        assert_eq!(room, [0xa5; 64]);
    }
    assert_eq!(after, statistics);
    [block, list, write]
}

#[test]
fn accepted_as_by_the_full_functions() {
    let state = start(&PAYLOAD).unwrap();
    let (mut contexts, mut statistics, mut levels) = ([64; CONTEXTS], [0; 4], [7; 17]);
    let found = residual_coding_plain(&PAYLOAD, state, &mut contexts, &mut statistics, Params::plain(2), &mut levels);
    let mut wanted = [0; 17];
    (wanted[1], wanted[4], wanted[16]) = (1, -1, 7);
    assert_eq!(levels, wanted);
    assert_eq!(found.map(|(f, s)| (f.column, f.row, f.greatest, s.position)), Ok((1, 1, 1, 17)));
    let mut again = [7; 17];
    assert_eq!(read_bins_plain(&LIST, &mut statistics, Params::plain(2), &mut again), found.map(|(f, _)| f));
    assert_eq!(again, wanted);
    let mut room = [0xa5; 20];
    assert_eq!(write_bins_plain(Params::plain(2), &mut statistics, &wanted, false, Rdpcm::None, &mut room), Ok(18));
    assert_eq!((&room[..18], &room[18..]), (&LIST[..], &[0xa5; 2][..]));
    assert_eq!(statistics, [0; 4]);
}

#[test]
fn what_is_not_plain_is_24() {
    let state = start(&PAYLOAD).unwrap();
    let p = Params::plain(2);
    let mut levels = [0; 1024];
    levels[0] = 1;
    let not_plain = [
        Params { depth: 9, ..p },
        Params { log2: 4, scan: 1, ..p },
        Params { log2: 5, scan: 2, ..p },
        Params { persistent: true, ..p },
        Params { skip_context: true, ..p },
        Params { explicit_rdpcm: true, ..p },
        Params { implicit_rdpcm: true, ..p },
        Params { aligning: true, ..p },
        Params { extended: true, ..p },
    ];
    for params in not_plain {
        assert_eq!(numbers(&PAYLOAD, state, [0; 4], params, &levels), [24; 3], "{params:?}");
    }
    for k in 0..4 {
        for value in [1, 84, 85, 255] {
            let mut statistics = [0; 4];
            statistics[k] = value;
            assert_eq!(numbers(&PAYLOAD, state, statistics, p, &levels), [24; 3], "{statistics:?}");
        }
    }
}

#[test]
fn numbers_in_their_order() {
    let state = start(&PAYLOAD).unwrap();
    let impossible = State { range: 1, offset: 1, ..state };
    let p = Params::plain(2);
    let mut levels = [0; 1024];
    levels[0] = 1;
    // 4 before 24, 1 before both, 24 before 3, 3 where all is plain
    assert_eq!(numbers(&PAYLOAD, state, [1; 4], Params { depth: 17, ..p }, &levels), [4; 3]);
    assert_eq!(numbers(&[0], state, [1; 4], Params { depth: 9, ..p }, &levels)[0], 1);
    assert_eq!(numbers(&PAYLOAD, impossible, [1, 0, 0, 0], p, &levels)[0], 24);
    assert_eq!(numbers(&PAYLOAD, impossible, [0; 4], p, &levels)[0], 3);
    assert_eq!(numbers(&PAYLOAD, State { ended: true, ..state }, [0; 4], p, &levels)[0], 6);
    // the writer: 24 before 9, then 9; RDPCM is never coded
    assert_eq!(numbers(&PAYLOAD, state, [0, 0, 0, 1], p, &[0; 16])[2], 24);
    assert_eq!(numbers(&PAYLOAD, state, [0; 4], p, &[0; 16])[2], 9);
    assert_eq!(write_bins_plain(p, &mut [0; 4], &levels, false, Rdpcm::Horizontal, &mut [0; 64]), Err(NotCoded));
    assert_eq!(write_bins_plain(p, &mut [0; 4], &levels, false, Rdpcm::None, &mut [0; 7]), Err(ShortRoom));
}

#[test]
fn flags_above_1_are_4() {
    let mut params = Params { depth: 9, ..Params::plain(2) }.raw();
    params.hiding = 2;
    let (mut statistics, mut levels) = ([0; 4], [0; 16]);
    let r = unsafe { bulmegart_read_bins_plain(LIST.as_ptr(), LIST.len(), statistics.as_mut_ptr(), params, levels.as_mut_ptr(), levels.len()) };
    assert_eq!(r.number, 4);
    let r = unsafe { bulmegart_plain_params(4, 1, 2, 0, 0, 0, 0) };
    assert_eq!((r.number, r.params.log2), (4, 0));
}

#[test]
fn records() {
    let said = Plain { log2: 3, scan: 2, hiding: true, lossless: true, inter: true, ..Plain::default() };
    let made = Params { scan: 2, luma: false, hiding: true, lossless: true, inter: true, ..Params::plain(3) };
    assert_eq!(plain_params(said), Ok(made));
    assert_eq!(plain_params(Plain { log2: 4, ..said }), Err(NotPlain));
    assert_eq!(plain_params(Plain { log2: 4, scan: 3, ..said }), Err(BadParameter));
    assert_eq!(plain_params(Plain { log2: 6, scan: 0, ..said }), Err(BadParameter));
    assert_eq!(plain_params(Plain { log2: 1, ..said }), Err(BadParameter));
}
