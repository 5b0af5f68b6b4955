//! The papers' cases, and what a refusal leaves, through the archive.
use bulmegart::raw;
use bulmegart::Refusal::*;
use bulmegart::*;

/// A list of entries as bytes.
fn list(entries: &[u16]) -> Vec<u8> {
    entries.iter().flat_map(|e| e.to_le_bytes()).collect()
}

fn state(range: u32, offset: u32, position: usize) -> State {
    State { range, offset, position, ended: false, past: 0 }
}

#[test]
fn initial_values() {
    for q in 0..=255 {
        assert_eq!(init(154, q), 64);
    }
    assert_eq!([init(139, 26), init(110, 0), init(0, 51), init(255, 51), init(255, 255)], [0, 96, 62, 126, 126]);
}

#[test]
fn as_many_values_as_contexts() {
    let (mut contexts, mut statistics) = ([7; CONTEXTS], [9; 4]);
    for n in [0, 120, CONTEXTS - 1, CONTEXTS + 1] {
        assert_eq!(init_contexts(&mut contexts, &mut statistics, &vec![154; n], 26), Err(BadParameter));
        assert_eq!((contexts, statistics), ([7; CONTEXTS], [9; 4]));
    }
    assert_eq!(init_contexts(&mut contexts, &mut statistics, &[154; CONTEXTS], 26), Ok(()));
    assert_eq!((contexts, statistics), ([64; CONTEXTS], [0; 4]));
}

#[test]
fn starts() {
    assert_eq!(start(&[]), Err(ShortPayload));
    assert_eq!(start(&[0]), Err(ShortPayload));
    assert_eq!(start(&vec![0; 16_777_217]), Err(LongPayload));
    assert!(start(&vec![0; 16_777_216]).is_ok());
    assert_eq!(start(&[0xff, 0]), Err(BadStart));
    assert_eq!(start(&[0xff, 0x80]), Err(BadStart));
    assert_eq!(start(&[0xfe, 0x80]), Ok(state(510, 509, 9)));
}

#[test]
fn bins_of_the_engine() {
    let s = start(&[0x80, 0]).unwrap();
    assert_eq!(decode_bypass_bits(&[0x80, 0], s, 3), Ok((4, state(510, 8, 12))));
    assert_eq!(decode_bypass_bits(&[0x80, 0], s, 10), Ok((514, State { past: 3, ..state(510, 11, 16) })));
    assert_eq!(decode_bypass_bits(&[0x80, 0], s, 33), Err(BadParameter));
    assert_eq!(decode_bypass_bits(&[0x80, 0], s, 0), Ok((0, s)));
    assert_eq!(decode_bypass(&[0x80, 0], s), Ok((true, state(510, 2, 10))));
    assert_eq!(read_bits(&[0x80, 0xff], s, 7), Ok((127, state(510, 256, 16))));
    let s = start(&[0xfe, 0x80]).unwrap();
    let mut context = 0;
    assert_eq!(decode_bin(&[0xfe, 0x80], s, &mut context), Ok((true, state(480, 478, 10))));
    assert_eq!(context, 64);
    context = 128;
    assert_eq!(decode_bin(&[0xfe, 0x80], s, &mut context), Err(ImpossibleState));
    assert_eq!(context, 128);
}

#[test]
fn terminate_rest_and_restart() {
    let payload = [0xfe, 0x80, 0x12, 0x34];
    assert_eq!(decode_terminate(&[0, 0], start(&[0, 0]).unwrap()), Ok((false, state(508, 0, 9))));
    let (bin, ended) = decode_terminate(&payload, start(&payload).unwrap()).unwrap();
    assert_eq!((bin, ended), (true, State { ended: true, ..state(508, 509, 9) }));
    assert_eq!(decode_terminate(&payload, ended), Err(Ended));
    assert_eq!(decode_bypass_bits(&payload, ended, 0), Err(Ended));
    assert_eq!(rest(&payload, ended), Ok(&payload[2..]));
    assert_eq!(byte_align(&payload, ended), Ok(State { position: 16, ..ended }));
    assert_eq!(restart(&payload, ended), Ok(state(510, 0x24, 25)));
    let beyond = State { position: 33, ..ended };
    assert_eq!(rest(&payload, beyond), Err(ImpossibleState));
    assert_eq!(decode_terminate(&payload, beyond), Err(ImpossibleState));
}

#[test]
fn a_block() {
    let payload = [0xfe, 0x80];
    let (mut contexts, mut statistics, mut levels) = ([64; CONTEXTS], [0; 4], [77; 20]);
    let s = start(&payload).unwrap();
    let (found, next) = residual_coding(&payload, s, &mut contexts, &mut statistics, Params::plain(2), &mut levels).unwrap();
    assert_eq!(next, state(480, 464, 13));
    assert_eq!(found, Found { skip: false, rdpcm: Rdpcm::None, column: 0, row: 0, greatest: 1 });
    assert_eq!(levels[..16], [-1, 0, 0, 0, 0, 0, 0, 0, 0, 0, 0, 0, 0, 0, 0, 0]);
    assert_eq!(levels[16..], [77; 4]);
    let changed: Vec<usize> = (0..CONTEXTS).filter(|&k| contexts[k] != 64).collect();
    assert_eq!(changed, [0, 18, 85]);
}

#[test]
fn a_block_from_a_list() {
    let (mut statistics, mut levels) = ([0; 4], [77; 17]);
    let list = list(&[1, 2, 36, 77, 72, 170, 172, BYPASS_ENTRY, BYPASS_ENTRY]);
    let found = read_bins(&list, &mut statistics, Params::plain(2), &mut levels).unwrap();
    assert_eq!((found.column, found.row, found.greatest), (1, 1, 1));
    assert_eq!((levels[0], levels[1], levels[4], levels[16]), (0, 1, 1, 77));
    levels = [77; 17];
    assert_eq!(read_bins(&list[..16], &mut statistics, Params::plain(2), &mut levels), Err(BadList));
    assert_eq!((levels[..16].to_vec(), levels[16]), (vec![0; 16], 77));
    levels = [77; 17];
    assert_eq!(read_bins(&list, &mut [0, 0, 0, 85], Params::plain(2), &mut levels), Err(ImpossibleState));
    assert_eq!(read_bins(&list, &mut statistics, Params::plain(6), &mut levels), Err(BadParameter));
    assert_eq!(read_bins(&list, &mut statistics, Params::plain(2), &mut levels[..15]), Err(BadParameter));
    assert_eq!(levels, [77; 17]);
}

#[test]
fn refusals_in_their_order() {
    let payload = [0xfe, 0x80];
    let s = start(&payload).unwrap();
    let mut kept = ([64; CONTEXTS], [0; 4], [77; 16]);
    let mut read = |payload: &[u8], s: State, p: Params| {
        let r = residual_coding(payload, s, &mut kept.0, &mut kept.1, p, &mut kept.2).map(|_| ());
        assert_eq!(kept, ([64; CONTEXTS], [0; 4], [77; 16]));
        r
    };
    let bad = State { range: 255, ended: false, ..s };
    let ended = State { ended: true, ..s };
    assert_eq!(read(&payload[..1], bad, Params::plain(6)), Err(ShortPayload));
    assert_eq!(read(&payload, bad, Params::plain(6)), Err(BadParameter));
    assert_eq!(read(&payload, bad, Params::plain(2)), Err(ImpossibleState));
    assert_eq!(read(&payload, ended, Params::plain(2)), Err(Ended));
    assert_eq!(read(&payload, State { position: 17, ..ended }, Params::plain(2)), Err(ImpossibleState));
}

#[test]
fn flags_above_1() {
    let payload = [0xfe, 0x80];
    let s = start(&payload).unwrap().raw();
    let (mut contexts, mut statistics, mut levels) = ([64u8; CONTEXTS], [0u8; 4], [77i32; 16]);
    let mut read = |payload: &[u8], s: raw::RawState, p: raw::RawParams| unsafe {
        raw::bulmegart_residual_coding(payload.as_ptr(), payload.len(), s, contexts.as_mut_ptr(), statistics.as_mut_ptr(), p, levels.as_mut_ptr(), 16)
    };
    let p = Params::plain(2).raw();
    assert_eq!(read(&payload, raw::RawState { past: 65536, ..s }, p).number, 3);
    assert_eq!(read(&payload[..1], raw::RawState { past: 65536, ..s }, p).number, 1);
    let bad = raw::RawState { ended: 255, range: 0, ..s };
    assert_eq!(read(&payload, bad, p), raw::RawBlockAnswer { number: 4, found: raw::RawFound { skip: 0, rdpcm: 0, column: 0, row: 0, greatest: 0 }, state: bad });
    for k in 0..11 {
        let mut q = p;
        *[
            &mut q.luma, &mut q.hiding, &mut q.skip_allowed, &mut q.lossless, &mut q.persistent, &mut q.skip_context,
            &mut q.explicit_rdpcm, &mut q.implicit_rdpcm, &mut q.inter, &mut q.aligning, &mut q.extended,
        ][k] = 2;
        assert_eq!(read(&payload, s, q).number, 4);
    }
    assert_eq!(read(&payload, s, p).number, 0);
    let wrong = raw::RawState { ended: 2, range: 0, ..s };
    unsafe {
        assert_eq!(raw::bulmegart_decode_bin(payload.as_ptr(), 2, wrong, 200), raw::RawDecisionAnswer { number: 4, bin: 0, context: 200, state: wrong });
        assert_eq!(raw::bulmegart_decode_bypass_bits(payload.as_ptr(), 2, wrong, 3).number, 4);
        assert_eq!(raw::bulmegart_decode_bypass(payload.as_ptr(), 2, wrong).number, 4);
        assert_eq!(raw::bulmegart_decode_terminate(payload.as_ptr(), 2, wrong).number, 4);
        assert_eq!(raw::bulmegart_read_bits(payload.as_ptr(), 2, wrong, 3).number, 4);
        assert_eq!(raw::bulmegart_byte_align(payload.as_ptr(), 2, wrong), raw::RawStateAnswer { number: 4, state: wrong });
        assert_eq!(raw::bulmegart_restart(payload.as_ptr(), 2, wrong).number, 4);
        assert_eq!(raw::bulmegart_rest(payload.as_ptr(), 2, wrong), raw::RawRestAnswer { number: 4, first: 2, length: 0 });
    }
}

#[test]
fn a_block_is_written_as_the_list_that_reads_as_it() {
    let mut levels = [0; 18];
    levels[0] = -3;
    levels[16] = i32::MIN;
    let (mut statistics, mut room) = ([0; 4], [255; 64]);
    let n = write_bins(Params::plain(2), &mut statistics, &levels, false, Rdpcm::None, &mut room).unwrap();
    assert!(room[n..].iter().all(|&b| b == 255));
    let mut again = [7; 18];
    let found = read_bins(&room[..n], &mut [0; 4], Params::plain(2), &mut again).unwrap();
    assert_eq!((found.skip, found.rdpcm, found.greatest), (false, Rdpcm::None, 3));
    assert_eq!((&again[..16], &again[16..]), (&levels[..16], &[7, 7][..]));
    let written = room[..n].to_vec();
    let mut full = vec![255; n];
    assert_eq!(write_bins(Params::plain(2), &mut statistics, &levels, false, Rdpcm::None, &mut full), Ok(n));
    assert_eq!(full, written);
    let mut short = vec![255; n - 1];
    assert_eq!(write_bins(Params::plain(2), &mut statistics, &levels, false, Rdpcm::None, &mut short), Err(ShortRoom));
    assert!(short.iter().all(|&b| b == 255));
}

#[test]
fn what_no_list_reads_as_is_refused() {
    let (mut statistics, mut room) = ([0; 4], [255; 64]);
    let mut write = |levels: &[i32], skip, rdpcm| write_bins(Params::plain(2), &mut statistics, levels, skip, rdpcm, &mut room);
    assert_eq!(write(&[0; 15], false, Rdpcm::None), Err(BadParameter));
    assert_eq!(write(&[0; 16], true, Rdpcm::Vertical), Err(AllZero));
    let mut levels = [0; 16];
    levels[5] = i32::MIN;
    assert_eq!(write(&levels, true, Rdpcm::None), Err(NotCoded));
    assert_eq!(write(&levels, false, Rdpcm::Horizontal), Err(NotCoded));
    assert_eq!(write(&levels, false, Rdpcm::None), Err(LevelOutOfRange));
    assert!(room.iter().all(|&b| b == 255));
}

#[test]
fn entries_of_two_bytes() {
    let read = |bytes: &[u8]| read_bins(bytes, &mut [0; 4], Params::plain(2), &mut [0; 16]).map(|f| f.greatest);
    let good = list(&[0, 36, 170, BYPASS_ENTRY]);
    assert_eq!(good, [0, 0, 36, 0, 170, 0, 4, 1]);
    assert_eq!(read(&good), Ok(1));
    // half an entry behind the block, half an entry in it, and what one byte an entry was
    assert_eq!(read(&[&good[..], &[0]].concat()), Err(BadList));
    assert_eq!(read(&good[..7]), Err(BadList));
    assert_eq!(read(&[0, 36, 170, 240]), Err(BadList));
    // contexts that are no part of the residual, the old entry of bypass, high byte first
    for first in [240, 258, 256, 263] {
        assert_eq!(read(&list(&[first, 36, 170, BYPASS_ENTRY])), Err(BadList));
    }
    assert_eq!(read(&list(&[0, 36, 170, 240])), Err(BadList));
    assert_eq!(read(&[0, 0, 36, 0, 170, 0, 1, 4]), Err(BadList));
    // an 8 that is met before half an entry stays 8
    let long = |ones: usize| [list(&[0, 36, 171, 217, BYPASS_ENTRY]), list(&vec![BYPASS_ENTRY + 1; ones]), vec![0]].concat();
    assert_eq!(read(&long(35)), Err(LevelOutOfRange));
    assert_eq!(read(&long(34)), Err(BadList));
}

#[test]
fn the_room_counts_bytes() {
    let mut levels = [0; 16];
    levels[0] = 1;
    for room in 0..10 {
        let mut lent = vec![255; room];
        let r = write_bins(Params::plain(2), &mut [0; 4], &levels, false, Rdpcm::None, &mut lent);
        assert_eq!(r, if room < 8 { Err(ShortRoom) } else { Ok(8) });
        assert_eq!(lent.iter().filter(|&&b| b == 255).count(), if room < 8 { room } else { room - 8 });
    }
}

/// The block that has the longest list of its size: each flag there is, every place significant, a remainder of 32 bins at each.
#[test]
fn the_longest_lists() {
    for log2 in 2..=5 {
        let params = Params {
            skip_allowed: true,
            explicit_rdpcm: true,
            inter: true,
            aligning: true,
            extended: true,
            depth: 16,
            ..Params::plain(log2)
        };
        let levels = vec![-4_194_304; 1 << (2 * log2)];
        let mut room = vec![0; longest_list(log2)];
        let n = write_bins(params, &mut [0; 4], &levels, true, Rdpcm::Vertical, &mut room);
        assert_eq!(n, Ok(longest_list(log2)));
    }
    assert_eq!([longest_list(1), longest_list(6), longest_list(u32::MAX)], [0; 3]);
}

#[test]
fn scales_from_payloads() {
    let mut contexts = [64; CONTEXTS];
    let payload = [0x86, 0xe0];
    assert_eq!(read_scale(&payload, start(&payload).unwrap(), &mut contexts, 0), Ok((1, state(256, 255, 11))));
    let mut wanted = [64; CONTEXTS];
    (wanted[120], wanted[121], wanted[128]) = (65, 0, 0);
    assert_eq!(contexts, wanted);

    contexts = [64; CONTEXTS];
    let payload = [0x0b, 0xf8];
    assert_eq!(read_scale(&payload, start(&payload).unwrap(), &mut contexts, 1), Ok((-8, state(384, 383, 13))));
    wanted = [64; CONTEXTS];
    for k in [124, 125, 126, 127, 129] {
        wanted[k] = 65;
    }
    assert_eq!(contexts, wanted);

    contexts = [64; CONTEXTS];
    let s = State { past: 2, ..state(510, 509, 16) };
    assert_eq!(read_scale(&[0xfe, 0xfe], s, &mut contexts, 1), Ok((0, State { past: 3, ..state(480, 479, 16) })));
    wanted = [64; CONTEXTS];
    wanted[124] = 0;
    assert_eq!(contexts, wanted);
}

#[test]
fn refused_scales_in_their_order() {
    let payload = [0xfe, 0x80];
    let s = start(&payload).unwrap();
    let impossible = State { range: 255, ..s };
    let ended = State { ended: true, ..s };
    let mut contexts = [64; CONTEXTS];
    let mut read = |payload: &[u8], s: State, component: u32| {
        let r = read_scale(payload, s, &mut contexts, component).map(|_| ());
        assert!(r.is_ok() || contexts == [64; CONTEXTS]);
        r
    };
    assert_eq!(read(&payload[..1], impossible, 2), Err(ShortPayload));
    assert_eq!(read(&vec![0; (1 << 24) + 1], impossible, 2), Err(LongPayload));
    assert_eq!(read(&payload, impossible, 2), Err(BadParameter));
    assert_eq!(read(&payload, impossible, u32::MAX), Err(BadParameter));
    assert_eq!(read(&payload, impossible, 1), Err(ImpossibleState));
    assert_eq!(read(&payload, State { past: 65536, ..ended }, 1), Err(ImpossibleState));
    assert_eq!(read(&payload, ended, 1), Err(Ended));
    for k in 0..CONTEXTS {
        let mut above = [64; CONTEXTS];
        above[k] = 128;
        assert_eq!(read_scale(&payload, ended, &mut above, 0), Err(ImpossibleState));
    }
    let wrong = raw::RawState { ended: 2, range: 0, ..s.raw() };
    let r = unsafe { raw::bulmegart_read_scale(payload.as_ptr(), 2, wrong, [64u8; CONTEXTS].as_mut_ptr(), 0) };
    assert_eq!(r, raw::RawScaleAnswer { number: 4, scale: 0, state: wrong });
}

/// A component's nine scales, each with its list.
fn nine(component: u16) -> Vec<(i32, Vec<u8>)> {
    let value = |bin: u16, one: u16| 2 * (120 + 4 * component + bin) + one;
    let mut all = vec![(0, list(&[value(0, 0)]))];
    for v in 1..=4 {
        for sign in 0..=1 {
            let mut entries: Vec<u16> = (0..v).map(|bin| value(bin, 1)).collect();
            if v < 4 {
                entries.push(value(v, 0));
            }
            entries.push(2 * (128 + component) + sign);
            let scale = 1 << (v - 1);
            all.push((if sign == 1 { -scale } else { scale }, list(&entries)));
        }
    }
    all
}

#[test]
fn scales_as_lists() {
    assert_eq!(nine(0)[0].1, [0xf0, 0]);
    assert_eq!(nine(0)[2], (-1, vec![0xf1, 0, 0xf2, 0, 1, 1]));
    assert_eq!(nine(0)[5], (4, vec![0xf1, 0, 0xf3, 0, 0xf5, 0, 0xf6, 0, 0, 1]));
    assert_eq!(nine(1)[8], (-8, vec![0xf9, 0, 0xfb, 0, 0xfd, 0, 0xff, 0, 3, 1]));
    for component in 0..2 {
        for (scale, bytes) in nine(component as u16) {
            assert_eq!(read_scale_bins(&bytes, component), Ok(scale));
            assert_eq!(read_scale_bins(&bytes, 1 - component), Err(BadList));
            assert_eq!(read_scale_bins(&[&bytes[..], &[0]].concat(), component), Err(BadList));
            assert_eq!(read_scale_bins(&bytes[..bytes.len() - 1], component), Err(BadList));
            for room in 0..LONGEST_SCALE_LIST + 2 {
                let mut lent = vec![255; room];
                let fits = bytes.len() <= room;
                assert_eq!(write_scale_bins(component, scale, &mut lent), if fits { Ok(bytes.len()) } else { Err(ShortRoom) });
                let mut wanted = vec![255; room];
                if fits {
                    wanted[..bytes.len()].copy_from_slice(&bytes);
                }
                assert_eq!(lent, wanted);
            }
        }
    }
    assert_eq!(read_scale_bins(&[0xf0, 0, 0, 1], 0), Err(BadList));
    assert_eq!(read_scale_bins(&[0xf0, 0, 0], 0), Err(BadList));
    assert_eq!(read_scale_bins(&[0xf1, 0, 0xf2, 0, 4, 1], 0), Err(BadList));
    assert_eq!(read_scale_bins(&[], 2), Err(BadParameter));
}

#[test]
fn scales_that_no_list_reads_as() {
    for scale in [3, -3, 5, 7, 9, -9, 16, -16, i32::MAX, i32::MIN] {
        assert_eq!(write_scale_bins(0, scale, &mut [255; 10]), Err(BadParameter));
    }
    assert_eq!(write_scale_bins(2, 0, &mut []), Err(BadParameter));
    assert_eq!(write_scale_bins(u32::MAX, 3, &mut []), Err(BadParameter));
    assert_eq!(write_scale_bins(0, -8, &mut [255; 9]), Err(ShortRoom));
}

#[test]
fn refusals_say_their_number() {
    assert_eq!(Refusal::ALL.map(Refusal::number), [1, 2, 3, 4, 5, 6, 7, 8, 9, 10, 11, 12, 13, 20, 21, 22, 23, 24]);
    for refusal in Refusal::ALL {
        assert_eq!(Refusal::of_number(refusal.number()), Some(refusal));
    }
    assert_eq!([Refusal::of_number(0), Refusal::of_number(14), Refusal::of_number(u32::MAX)], [None; 3]);
    let error: Box<dyn std::error::Error> = Box::new(start(&[]).unwrap_err());
    assert_eq!(error.to_string(), "refused, number 1: payload under 2 bytes");
}

#[test]
fn a_reader_carries_all() {
    let payload = [0xc9, 0x62, 0x0f, 0xc0];
    let mut reader = Reader::start(&payload, &[154; CONTEXTS], 26).unwrap();
    let mut levels = [0; 16];
    assert_eq!(reader.residual_coding(Params::plain(2), &mut levels).unwrap().greatest, 5);
    let second = reader.residual_coding(Params::plain(2), &mut levels).unwrap();
    assert_eq!((second.column, second.row, levels[1], levels[4]), (1, 1, 1, -1));
    assert_eq!(reader.state, state(480, 479, 26));
    // a refused call moves nothing
    let kept = reader.clone();
    assert_eq!(reader.residual_coding(Params::plain(6), &mut levels), Err(BadParameter));
    assert_eq!(reader.read_scale(2), Err(BadParameter));
    assert_eq!(reader.decode_bypass_bits(33), Err(BadParameter));
    assert_eq!(reader.init_contexts(&[154; 120], 26), Err(BadParameter));
    assert_eq!(reader, kept);
    // each call as the function of its name
    let mut context = 64;
    assert_eq!(reader.decode_bin(&mut context).map(|bin| (bin, reader.state)), decode_bin(&payload, kept.state, &mut { 64 }));
    let before = reader.state;
    assert_eq!(reader.decode_bypass().map(|bin| (bin, reader.state)), decode_bypass(&payload, before));
    let before = reader.state;
    assert_eq!(reader.decode_bypass_bits(9).map(|value| (value, reader.state)), decode_bypass_bits(&payload, before, 9));
    let before = reader.state;
    assert_eq!(reader.read_bits(3).map(|value| (value, reader.state)), read_bits(&payload, before, 3));
    let before = reader.state;
    assert_eq!(reader.read_scale(1).map(|scale| (scale, reader.state)), read_scale(&payload, before, &mut kept.contexts.clone(), 1));
    assert_eq!(reader.rest(), rest(&payload, reader.state));
    let before = reader.state;
    assert_eq!(reader.byte_align().map(|()| reader.state), byte_align(&payload, before));
    let before = reader.state;
    assert_eq!(reader.restart(), restart(&payload, before).map(|_| ()));
    assert_eq!(Reader::start(&payload[..1], &[], 26), Err(ShortPayload));
    assert_eq!(Reader::start(&[0xff, 0xff], &[], 26), Err(BadParameter));
    assert_eq!(Reader::start(&[0xff, 0xff], &[154; CONTEXTS], 26), Err(BadStart));
    let mut ending = Reader::start(&[0xfe, 0x80], &[154; CONTEXTS], 26).unwrap();
    assert_eq!((ending.decode_terminate(), ending.decode_terminate()), (Ok(true), Err(Ended)));
}

#[test]
fn null_with_length_0() {
    use std::ptr::{null, null_mut};
    let payload = [0xfe, 0x80];
    let s = start(&payload).unwrap().raw();
    let p = Params::plain(2).raw();
    let (mut contexts, mut statistics, mut levels, mut room) = ([64u8; CONTEXTS], [0u8; 4], [1i32; 16], [0u8; 64]);
    let (c, t) = (contexts.as_mut_ptr(), statistics.as_mut_ptr());
    let (no_bytes, no_room, no_levels) = (null::<u8>(), null_mut::<u8>(), null_mut::<i32>());
    // Sound: each pointer that has a length above 0 is to as many elements.
    unsafe {
        assert_eq!(raw::bulmegart_init_contexts(c, t, no_bytes, 0, 26), 4);
        assert_eq!(raw::bulmegart_start(no_bytes, 0).number, 1);
        assert_eq!(raw::bulmegart_decode_bin(no_bytes, 0, s, 64).number, 1);
        assert_eq!(raw::bulmegart_decode_bypass(no_bytes, 0, s).number, 1);
        assert_eq!(raw::bulmegart_decode_bypass_bits(no_bytes, 0, s, 3).number, 1);
        assert_eq!(raw::bulmegart_decode_terminate(no_bytes, 0, s).number, 1);
        assert_eq!(raw::bulmegart_align_bypass(no_bytes, 0, s).number, 1);
        assert_eq!(raw::bulmegart_byte_align(no_bytes, 0, s).number, 1);
        assert_eq!(raw::bulmegart_rest(no_bytes, 0, s), raw::RawRestAnswer { number: 1, first: 0, length: 0 });
        assert_eq!(raw::bulmegart_restart(no_bytes, 0, s).number, 1);
        assert_eq!(raw::bulmegart_read_bits(no_bytes, 0, s, 3).number, 1);
        assert_eq!(raw::bulmegart_residual_coding(no_bytes, 0, s, c, t, p, no_levels, 0).number, 1);
        assert_eq!(raw::bulmegart_residual_coding(payload.as_ptr(), 2, s, c, t, p, no_levels, 0).number, 4);
        assert_eq!(raw::bulmegart_read_bins(no_bytes, 0, t, p, no_levels, 0).number, 4);
        assert_eq!(raw::bulmegart_read_bins(no_bytes, 0, t, p, levels.as_mut_ptr(), 16).number, 13);
        assert_eq!(levels, [0; 16]);
        assert_eq!(raw::bulmegart_write_bins(p, t, no_levels, 0, 0, 0, no_room, 0).number, 4);
        levels[0] = 1;
        assert_eq!(raw::bulmegart_write_bins(p, t, no_levels, 0, 0, 0, room.as_mut_ptr(), 64).number, 4);
        assert_eq!(raw::bulmegart_write_bins(p, t, levels.as_ptr(), 16, 0, 0, no_room, 0).number, 12);
        assert_eq!(raw::bulmegart_read_scale(no_bytes, 0, s, c, 0).number, 1);
        assert_eq!(raw::bulmegart_read_scale_bins(no_bytes, 0, 0).number, 13);
        assert_eq!(raw::bulmegart_write_scale_bins(0, 0, no_room, 0).number, 12);
    }
    assert_eq!((contexts, statistics), ([64; CONTEXTS], [0; 4]));
}

#[test]
fn alignment_of_the_range() {
    let payload = [0x80, 0];
    let s = start(&payload).unwrap();
    assert_eq!(s, state(510, 256, 9));
    assert_eq!(align_bypass(&payload, s), Err(BadAlignment));
    let below = State { offset: 255, past: 9, ..s };
    assert_eq!(align_bypass(&payload, below), Ok(State { range: 256, ..below }));
    assert_eq!(align_bypass(&payload, State { ended: true, ..s }), Err(Ended));
    assert_eq!(align_bypass(&payload, State { position: 17, ended: true, ..s }), Err(ImpossibleState));
    assert_eq!(align_bypass(&payload, State { range: 255, offset: 254, ..s }), Err(ImpossibleState));
    assert_eq!(align_bypass(&[0x80], below), Err(ShortPayload));
    let wrong = raw::RawState { range: 510, offset: 256, position: 9, ended: 2, past: 0 };
    let r = unsafe { raw::bulmegart_align_bypass(payload.as_ptr(), 2, wrong) };
    assert_eq!(r, raw::RawStateAnswer { number: 4, state: wrong });
}
