//! Request (xiii)'s cases, and what a refusal leaves, through the archive.
use bulmegart::h264::*;
use bulmegart::Refusal::*;
use bulmegart::{start, State};

/// A list of entries as bytes.
fn list(entries: &[u16]) -> Vec<u8> {
    entries.iter().flat_map(|e| e.to_le_bytes()).collect()
}

/// Levels by place.
fn levels(of: &[(usize, i32)]) -> [i32; PLACES] {
    let mut all = [0; PLACES];
    for &(place, level) in of {
        all[place] = level;
    }
    all
}

#[test]
fn one_level_at_each_end() {
    let first = list(&[1, 31, 62, 260]);
    let mut room = [0xa5; 64];
    assert_eq!(write_bins(&levels(&[(0, 1)]), &mut room), Ok(8));
    assert_eq!((&room[..8], room[8]), (&first[..], 0xa5));
    // place 15 is inferred: fifteen zeros, and no last flag
    let mut entries: Vec<u16> = (0..15).map(|k| 2 * k).collect();
    entries.extend([62, 260]);
    assert_eq!(write_bins(&levels(&[(15, 1)]), &mut room), Ok(34));
    assert_eq!(room[..34], list(&entries)[..]);
    let mut read = [7; PLACES + 1];
    assert_eq!((read_bins(&list(&entries), &mut read), read[15], read[16]), (Ok(1), 1, 7));
}

#[test]
fn lists_that_are_refused() {
    for (entries, number) in [(&[][..], BadList), (&[1, 31, 62], BadList), (&[1, 31, 62, 260, 260], BadList), (&[1, 31, 62, 262], BadList), (&[1, 31, 80, 260], BadList)] {
        let mut read = [7; PLACES + 1];
        assert_eq!((read_bins(&list(entries), &mut read), read[0], read[16]), (Err(number), 0, 7), "{entries:?}");
    }
    let mut short = [7; PLACES - 1];
    assert_eq!((read_bins(&list(&[1, 31, 62, 260]), &mut short), short), (Err(BadParameter), [7; PLACES - 1]));
}

/// 14 ones, then a suffix prefix of so many ones, a zero unless they are 16, as many digits, a sign.
fn suffixed(ones: usize, digits: &[u16], sign: u16) -> Vec<u8> {
    let mut entries = vec![1, 31, 63];
    entries.extend([71; 13]);
    entries.extend(vec![261; ones]);
    if ones < 16 {
        entries.push(260);
        entries.extend(digits.iter().map(|d| 260 + d));
        entries.push(260 + sign);
    }
    list(&entries)
}

#[test]
fn levels_out_of_range() {
    let mut read = [7; PLACES];
    // 16 ones are 8 at once; 15 are read whole, and are 8 once the sign is read
    assert_eq!(read_bins(&suffixed(16, &[], 0), &mut read), Err(LevelOutOfRange));
    assert_eq!(read_bins(&suffixed(15, &[0; 15], 0), &mut read), Err(LevelOutOfRange));
    let cut = suffixed(15, &[0; 15], 0);
    assert_eq!(read_bins(&cut[..cut.len() - 2], &mut read), Err(BadList));
    // 32768: 14 + 16383 + 16370 + 1
    let digits: Vec<u16> = (0..14).rev().map(|k| 16370 >> k & 1).collect();
    assert_eq!(read_bins(&suffixed(14, &digits, 0), &mut read), Err(LevelOutOfRange));
    assert_eq!(read, [0; PLACES]);
    assert_eq!((read_bins(&suffixed(14, &digits, 1), &mut read), read[0]), (Ok(32768), -32768));
    let mut room = [0xa5; LONGEST_LIST];
    assert_eq!(write_bins(&levels(&[(0, 32768)]), &mut room), Err(LevelOutOfRange));
    assert_eq!(write_bins(&levels(&[(0, i32::MIN)]), &mut room), Err(LevelOutOfRange));
    assert_eq!(write_bins(&[0; PLACES], &mut room), Err(AllZero));
    assert_eq!(write_bins(&[1; PLACES - 1], &mut room), Err(BadParameter));
    assert!(room.iter().all(|&b| b == 0xa5));
    assert_eq!(write_bins(&[-32768; PLACES], &mut room), Ok(LONGEST_LIST));
    assert_eq!(write_bins(&[-32768; PLACES], &mut room[..LONGEST_LIST - 1]), Err(ShortRoom));
}

#[test]
fn payloads() {
    let payload = [0xfe, 0xff, 0xff, 0xc0];
    let (mut contexts, mut read) = ([64; CONTEXTS], [7; PLACES + 1]);
    let state = State { range: 480, offset: 479, position: 26, ended: false, past: 0 };
    assert_eq!(residual_block(&payload, start(&payload).unwrap(), &mut contexts, &mut read), Ok((1, state)));
    assert_eq!((read[15], read[16], contexts[14], contexts[31]), (-1, 7, 0, 0));
    let payload = [0x00, 0x18, 0xff, 0xff, 0xf0];
    let (mut contexts, mut read) = ([64; CONTEXTS], [7; PLACES + 1]);
    assert_eq!(residual_block(&payload, start(&payload).unwrap(), &mut contexts, &mut read), Err(LevelOutOfRange));
    assert_eq!((contexts, read[0], read[16]), ([64; CONTEXTS], 0, 7));
    contexts[39] = 128;
    read = [7; PLACES + 1];
    assert_eq!(residual_block(&payload, start(&payload).unwrap(), &mut contexts, &mut read), Err(ImpossibleState));
    assert_eq!(read, [7; PLACES + 1]);
}

#[test]
fn contexts_from_pairs() {
    let pairs = |m: i32, n: i32| [m, n].repeat(CONTEXTS);
    let mut contexts = [7; CONTEXTS];
    for (m, n, qp, context) in [(0, 64, 26, 64), (-1, 64, 26, 1), (-128, 127, 51, 62), (127, -128, 51, 126), (127, -128, 255, 126)] {
        assert_eq!(init_pairs(&mut contexts, &pairs(m, n), qp), Ok(()));
        assert_eq!(contexts, [context; CONTEXTS], "{m}:{n} at {qp}");
    }
    contexts = [7; CONTEXTS];
    for bad in [pairs(128, 0), pairs(0, -129), pairs(0, 64)[..79].to_vec(), pairs(0, 64)[..78].to_vec(), [pairs(0, 64), vec![0, 64]].concat()] {
        assert_eq!(init_pairs(&mut contexts, &bad, 26), Err(BadParameter));
    }
    assert_eq!(contexts, [7; CONTEXTS]);
}

/// A list as a payload, read back; and what a refusal leaves.
#[test]
fn packed() {
    let bins = list(&[1, 31, 62, 260]);
    let mut room = [0xa5; 4];
    assert_eq!((pack_bins(&[64; CONTEXTS], &bins, &mut room), room), (Ok(2), [0x36, 0xf0, 0xa5, 0xa5]));
    let mut longest = [0; LONGEST_LIST];
    let n = write_bins(&[-32768; PLACES], &mut longest).unwrap();
    let mut room = vec![0; bulmegart::payload_bound(n)];
    let length = pack_bins(&[64; CONTEXTS], &longest[..n], &mut room).unwrap();
    let payload = &room[..length];
    let (mut contexts, mut read) = ([64; CONTEXTS], [7; PLACES]);
    let (greatest, state) = residual_block(payload, start(payload).unwrap(), &mut contexts, &mut read).unwrap();
    assert_eq!((greatest, read, state.past), (32768, [-32768; PLACES], 0));
    assert!(bulmegart::decode_terminate(payload, state).unwrap().0);
    let mut held = [0xa5; 1];
    assert_eq!(pack_bins(&[64; CONTEXTS], &bins, &mut held), Err(ShortRoom));
    assert_eq!(pack_bins(&[64; CONTEXTS], &bins[..6], &mut held), Err(BadList));
    assert_eq!(pack_bins(&[128; CONTEXTS], &bins[..6], &mut held), Err(ImpossibleState));
    assert_eq!(held, [0xa5; 1]);
}
