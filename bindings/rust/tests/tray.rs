//! Request (iv): a tray beside the same blocks one at a time, and what a refusal leaves, through the archive.
use bulmegart::Refusal::*;
use bulmegart::*;

const HELD: i32 = 7;
const UNFOUND: TrayFound = TrayFound { skip: 9, rdpcm: 9, column: 9, row: 9, greatest: 9 };
/// 5; then 1 at (1,0) and −1 at (0,1).
const TWO: [u8; 4] = [0xc9, 0x62, 0x0f, 0xc0];
/// 5; then a level outside the range.
const STOPPED: [u8; 7] = [0xc8, 0xa8, 0xb7, 0xfd, 0xd1, 0xdd, 0x18];

fn plain(n: usize) -> Vec<Record> {
    vec![Params::plain(2).into(); n]
}

struct Bench {
    contexts: [u8; CONTEXTS],
    statistics: [u8; STATISTICS],
    levels: Vec<i32>,
    found: Vec<TrayFound>,
}

fn bench(places: usize, founds: usize) -> Bench {
    Bench { contexts: [64; CONTEXTS], statistics: [0; STATISTICS], levels: vec![HELD; places], found: vec![UNFOUND; founds] }
}

impl Bench {
    fn read(&mut self, payload: &[u8], state: State, records: &[Record]) -> Tray {
        read_tray(payload, state, &mut self.contexts, &mut self.statistics, records, &mut self.levels, &mut self.found)
    }

    fn untouched(&self) -> bool {
        self.contexts == [64; CONTEXTS] && self.levels.iter().all(|&v| v == HELD) && self.found.iter().all(|&f| f == UNFOUND)
    }
}

#[test]
fn as_one_after_the_other() {
    let mut reader = Reader { payload: &TWO, state: start(&TWO).unwrap(), contexts: [64; CONTEXTS], statistics: [0; STATISTICS] };
    let mut one = reader.clone();
    let (mut levels, mut found) = ([HELD; 40], [UNFOUND; 3]);
    assert_eq!(reader.read_tray(&plain(2), &mut levels, &mut found), (2, None));
    for (part, found) in parts(&plain(2), &levels).zip(found) {
        let mut block = [0; 16];
        assert_eq!(one.residual_coding(Params::plain(2), &mut block), Ok(found.into()));
        assert_eq!(part, block);
    }
    assert_eq!(one, reader);
    assert_eq!((&levels[32..], found[2]), (&[HELD; 8][..], UNFOUND));
}

#[test]
fn stopped_by_8() {
    let mut b = bench(48, 3);
    let t = b.read(&STOPPED, start(&STOPPED).unwrap(), &plain(3));
    assert_eq!((t.done, t.refusal, t.state), (1, Some(LevelOutOfRange), State { range: 480, offset: 17, position: 17, ended: false, past: 0 }));
    let shown: Vec<&[i32]> = parts(&plain(3), &b.levels).collect();
    assert_eq!((shown[0][0], shown[1], shown[2]), (5, &[0; 16][..], &[HELD; 16][..]));
    assert_eq!((b.found[0].greatest, b.found[1], b.found[2]), (5, UNFOUND, UNFOUND));
    let mut alone = bench(16, 1);
    assert_eq!(alone.read(&STOPPED, start(&STOPPED).unwrap(), &plain(1)).state, t.state);
    assert_eq!((alone.contexts, alone.statistics), (b.contexts, b.statistics));
}

#[test]
fn no_records() {
    let nowhere = State { range: 9, offset: 9, position: 99, ended: true, past: 70_000 };
    let mut b = bench(5, 0);
    b.contexts = [200; CONTEXTS];
    assert_eq!(b.read(&[0], nowhere, &[]), Tray { done: 0, refusal: None, state: nowhere });
    assert_eq!((b.contexts, &b.levels[..]), ([200; CONTEXTS], &[HELD; 5][..]));
}

/// Nothing is read, and nothing touched.
#[test]
fn refused_at_once() {
    let s = start(&TWO).unwrap();
    let bad = |record: Record| [plain(1), vec![record]].concat();
    let flag = Record { hiding: 2, ..plain(1)[0] };
    let big = Record::from(Params { log2: 258, ..Params::plain(2) });
    let cases: [(&[u8], State, Vec<Record>, usize, usize, Refusal); 10] = [
        (&[0], s, bad(flag), 32, 2, ShortPayload),
        (&TWO, s, bad(flag), 32, 2, BadParameter),
        (&TWO, s, bad(big), 64, 2, BadParameter),
        (&TWO, s, plain(2), 31, 2, BadParameter),
        (&TWO, s, plain(2), 32, 1, BadParameter),
        (&TWO, s, plain(257), 257 * 16, 257, BadParameter),
        (&TWO, State { position: 33, ..s }, bad(flag), 32, 2, BadParameter),
        (&TWO, State { position: 33, ..s }, plain(2), 32, 2, ImpossibleState),
        (&TWO, State { past: 65_536, ended: true, ..s }, plain(2), 32, 2, ImpossibleState),
        (&TWO, State { ended: true, ..s }, plain(2), 32, 2, Ended),
    ];
    for (payload, state, records, places, founds, refusal) in cases {
        let mut b = bench(places, founds);
        assert_eq!(b.read(payload, state, &records), Tray { done: 0, refusal: Some(refusal), state });
        assert!(b.untouched(), "{refusal}");
    }
}

/// A flag of the state that is none is 4 behind 1 and 2, and nothing where there are no records.
#[test]
fn flag_of_the_state() {
    let mut b = bench(16, 1);
    let state = raw::RawState { ended: 2, ..start(&TWO).unwrap().raw() };
    for (payload, count, number) in [(&TWO[..], 1, 4), (&TWO[..1], 1, 1), (&TWO[..], 0, 0)] {
        let record = plain(1);
        // Sound: lengths are those of the vectors.
        let r = unsafe {
            bulmegart_read_tray(
                payload.as_ptr(),
                payload.len(),
                state,
                b.contexts.as_mut_ptr(),
                b.statistics.as_mut_ptr(),
                record.as_ptr(),
                count,
                b.levels.as_mut_ptr(),
                b.levels.len(),
                b.found.as_mut_ptr(),
                b.found.len(),
            )
        };
        assert_eq!((r.number, r.done, r.state), (number, 0, state));
        assert!(b.untouched());
    }
}

#[test]
fn parts_end_where_the_buffer_does() {
    let records = [plain(1)[0], Params::plain(3).into(), plain(1)[0]];
    let levels = [0; 90];
    assert_eq!(parts(&records, &levels).map(<[i32]>::len).collect::<Vec<_>>(), [16, 64]);
    assert_eq!(parts(&[Record { log2: 6, ..records[0] }], &levels).count(), 0);
}
