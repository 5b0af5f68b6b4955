//! Lists as payloads, and what a refusal leaves, through the archive.
use bulmegart::Refusal::*;
use bulmegart::*;

/// A list of entries as bytes.
fn list(entries: &[u16]) -> Vec<u8> {
    entries.iter().flat_map(|e| e.to_le_bytes()).collect()
}

const HELD: u8 = 0xa5;

fn packed(params: Params, bins: &[u8], room: usize) -> (Result<usize, Refusal>, Vec<u8>) {
    let mut lent = vec![HELD; room];
    let r = pack_bins(&[64; CONTEXTS], &[0; 4], params, bins, &mut lent);
    (r, lent)
}

#[test]
fn worked() {
    let plain = Params::plain(2);
    let level_4 = list(&[0, 0x24, 0xab, 0xd9, 260, 261, 260]);
    for (bins, payload) in [
        (list(&[0, 0x24, 0xaa, 260]), vec![0xef, 0xf8]),
        (list(&[0, 0x24, 0xaa, 261]), vec![0xfe, 0xf8]),
        (list(&[1, 2, 0x24, 0x4d, 0x48, 0xaa, 0xac, 260, 260]), vec![0x75, 0x7f, 0x80]),
        (level_4, vec![0xc8, 0x9f]),
    ] {
        let n = payload.len();
        let (r, room) = packed(plain, &bins, n + 3);
        assert_eq!((r, &room[..n], &room[n..]), (Ok(n), &payload[..], &[HELD; 3][..]));
        assert_eq!(packed(plain, &bins, n), (Ok(n), payload));
        assert_eq!(packed(plain, &bins, n - 1), (Err(ShortRoom), vec![HELD; n - 1]));
    }
}

/// The payload is read back, and then terminate is 1.
#[test]
fn read_back() {
    let bins = list(&[1, 2, 0x24, 0x4d, 0x48, 0xaa, 0xac, 260, 260]);
    let (r, room) = packed(Params::plain(2), &bins, longest_payload(2));
    let payload = &room[..r.unwrap()];
    let (mut contexts, mut statistics, mut ours, mut theirs) = ([64; CONTEXTS], [0; 4], [7; 16], [7; 16]);
    let (found, state) = residual_coding(payload, start(payload).unwrap(), &mut contexts, &mut statistics, Params::plain(2), &mut ours).unwrap();
    assert_eq!(read_bins(&bins, &mut [0; 4], Params::plain(2), &mut theirs), Ok(found));
    assert_eq!((ours, state.past), (theirs, 0));
    let (bin, last) = decode_terminate(payload, state).unwrap();
    assert_eq!((bin, last.past, last.position.div_ceil(8)), (true, 0, payload.len()));
}

#[test]
fn refusals() {
    let bins = list(&[0, 0x24, 0xaa, 260]);
    let p = |change: &dyn Fn(&mut Params)| {
        let mut p = Params::plain(2);
        change(&mut p);
        p
    };
    for bad in [p(&|p| p.log2 = 6), p(&|p| p.scan = 3), p(&|p| p.depth = 7)] {
        assert_eq!(packed(bad, &bins, 9), (Err(BadParameter), vec![HELD; 9]));
    }
    let mut room = [HELD; 9];
    assert_eq!(pack_bins(&[128; CONTEXTS], &[0; 4], Params::plain(2), &bins, &mut room), Err(ImpossibleState));
    assert_eq!(pack_bins(&[64; CONTEXTS], &[0, 0, 0, 85], Params::plain(2), &bins, &mut room), Err(ImpossibleState));
    assert_eq!(room, [HELD; 9]);
    // a list that ends early, one with a byte too many, and no room for it either
    for wrong in [&bins[..6], &bins[..7], &[&bins[..], &[0]].concat()] {
        assert_eq!(packed(Params::plain(2), wrong, 0), (Err(BadList), vec![]));
    }
}

#[test]
fn scales() {
    let mut room = [HELD; 8];
    let mut bins = [0; LONGEST_SCALE_LIST];
    for component in 0..2 {
        for scale in [-8, -4, -2, -1, 0, 1, 2, 4, 8] {
            let n = write_scale_bins(component, scale, &mut bins).unwrap();
            let length = pack_scale(&[64; CONTEXTS], component, &bins[..n], &mut room).unwrap();
            let payload = &room[..length];
            let (read, state) = read_scale(payload, start(payload).unwrap(), &mut [64; CONTEXTS], component).unwrap();
            assert_eq!((read, state.past), (scale, 0));
            let (bin, last) = decode_terminate(payload, state).unwrap();
            assert_eq!((bin, last.position.div_ceil(8)), (true, length));
        }
    }
    assert_eq!(pack_scale(&[64; CONTEXTS], 2, &bins, &mut room), Err(BadParameter));
    assert_eq!(pack_scale(&[255; CONTEXTS], 1, &bins, &mut room), Err(ImpossibleState));
    assert_eq!(pack_scale(&[64; CONTEXTS], 1, &[], &mut room), Err(BadList));
    assert_eq!(pack_scale(&[64; CONTEXTS], 0, &list(&[240]), &mut []), Err(ShortRoom));
}

/// Two blocks in one payload: what the lists hold, from one call of the tray's reader.
#[test]
fn trays() {
    let one = list(&[0, 0x24, 0xaa, 260]);
    let less = list(&[0, 0x24, 0xaa, 261]);
    let both = [&one[..], &less[..]].concat();
    let records = [Record::from(Params::plain(2)); 2];
    let pack = |records: &[Record], lists: &[u8], room: &mut [u8]| pack_tray(&[64; CONTEXTS], &[0; 4], records, lists, room);
    let mut room = [HELD; 9];
    assert_eq!(pack(&records, &both, &mut room), PackedTray { done: 2, length: Ok(3) });
    assert_eq!(room, [0xe2, 0xdf, 0x80, HELD, HELD, HELD, HELD, HELD, HELD]);
    let payload = &room[..3];
    let (mut contexts, mut statistics, mut levels, mut found) = ([64; CONTEXTS], [0; 4], [7; 32], [TrayFound::default(); 2]);
    let tray = read_tray(payload, start(payload).unwrap(), &mut contexts, &mut statistics, &records, &mut levels, &mut found);
    assert_eq!((tray.done, tray.refusal, levels[0], levels[16], tray.state.past), (2, None, 1, -1, 0));
    assert!(decode_terminate(payload, tray.state).unwrap().0);
    // a list too few, one too many, a bad one in the second place; 12 by one byte; 4 and 3 before them
    let mut held = [HELD; 9];
    assert_eq!(pack(&records, &one, &mut held), PackedTray { done: 1, length: Err(BadList) });
    assert_eq!(pack(&records[..1], &both, &mut held), PackedTray { done: 1, length: Err(BadList) });
    assert_eq!(pack(&records, &[&one[..], &less[..6]].concat(), &mut held), PackedTray { done: 1, length: Err(BadList) });
    assert_eq!(pack(&records, &both, &mut held[..2]), PackedTray { done: 2, length: Err(ShortRoom) });
    let flag = Record { luma: 2, ..records[0] };
    assert_eq!(pack(&[records[0], flag], &both, &mut held), PackedTray { done: 0, length: Err(BadParameter) });
    assert_eq!(pack(&[records[0]; TRAY_MOST + 1], &both, &mut held), PackedTray { done: 0, length: Err(BadParameter) });
    assert_eq!(pack_tray(&[128; CONTEXTS], &[0; 4], &records, &both, &mut held), PackedTray { done: 0, length: Err(ImpossibleState) });
    assert_eq!(held, [HELD; 9]);
    // nothing in it: the flush alone
    assert_eq!(pack(&[], &[], &mut held), PackedTray { done: 0, length: Ok(2) });
}
