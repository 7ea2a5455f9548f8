//! The archive's functions as they are: what a caller that lends its own room meets.
mod common;
use common::{full_segments, hex, pattern};
use lattrugone::ddm::{build_ddm_object, DdmObject};
use lattrugone::dss::build_dss_object;
use lattrugone::port::{self, Words, ANSWER_WORDS, OBJECT_WORDS, RECORD_WORDS};

const KEPT: u64 = 0xAAAA;

/// Makes a call with eight words and hands those out; the number is the first.
fn words(call: impl FnOnce(&mut [u64]) -> u8) -> Words {
    let mut lent = [KEPT; ANSWER_WORDS + 1];
    let number = call(&mut lent);
    assert_eq!((number as u64, lent[ANSWER_WORDS]), (lent[0], KEPT));
    lent[..ANSWER_WORDS].try_into().unwrap()
}

#[test]
fn a_refusal_alters_nothing_that_is_lent() {
    let run = hex("0007D0030001AA 0007D0530001BB");
    let mut room = [0x11; 1];
    let read = words(|w| port::next_frame(&run, 0, &mut room, w));
    assert_eq!((read, room), ([9, 0, 2, 0, 0, 0, 0, 0], [0x11]));
    let beyond = words(|w| port::next_frame(&run, 15, &mut room, w));
    assert_eq!((beyond, room), ([10, 15, 15, 14, 0, 0, 0, 0], [0x11]));
    let mut row = [KEPT; RECORD_WORDS];
    let all = words(|w| port::read_all_frames(&run, 0, &mut room, &mut row, w));
    let kept = [KEPT; RECORD_WORDS];
    assert_eq!((all, room, row), ([9, 0, 2, 1, 0, 0, 0, 0], [0x11], kept));
    let few = &mut row[..RECORD_WORDS - 1];
    let salvaged = words(|w| port::salvage(&run, &mut [0; 2], few, w));
    assert_eq!((salvaged, row), ([9, 0, 2, 1, 0, 0, 0, 0], kept));
}

#[test]
fn bytes_beside_the_result_stay() {
    let run = hex("0007D0030001AA 0007D0530001BB");
    let mut room = [0x11; 4];
    let mut row = [KEPT; 2 * RECORD_WORDS];
    let all = words(|w| port::read_all_frames(&run, 0, &mut room, &mut row, w));
    assert_eq!(all, [0, 14, 1, 2, 0, 0, 0, 0]);
    assert_eq!(room.to_vec(), hex("AABB1111"));
    assert_eq!(row[..RECORD_WORDS], [0, 0, 7, 0x43, 1, 2, 2, 0, 0, 14]);
    assert_eq!(row[RECORD_WORDS..], [KEPT; RECORD_WORDS]);
}

#[test]
fn fewer_than_eight_words_stay() {
    let mut lent = [KEPT; ANSWER_WORDS - 1];
    assert_eq!(port::type_from_byte(6, &mut lent), 3);
    assert_eq!(
        port::next_frame(&hex("0006D0020007"), 0, &mut [], &mut lent),
        0
    );
    assert_eq!(
        (port::as_u16(&[], &mut []), lent),
        (11, [KEPT; ANSWER_WORDS - 1])
    );
}

#[test]
fn marks_beyond_their_buffer() {
    let mut room = [0x11; 3];
    let wrote = words(|w| port::write_request(1, 4, 0, b"", &mut room, w));
    assert_eq!(wrote, [10, 4, 4, 3, 0, 0, 0, 0]);
    let added = words(|w| port::builder_add_raw(4, b"", &mut room, w));
    assert_eq!(added, [10, 4, 4, 3, 0, 0, 0, 0]);
    let built = words(|w| port::builder_build(0x2001, 1, &[], &mut room, w));
    assert_eq!(built, [10, 1, 1, 0, 0, 0, 0, 0]);
    assert_eq!(
        words(|w| port::object(&[], 1, &mut room, w)),
        [10, 1, 1, 0, 0, 0, 0, 0]
    );
    assert_eq!(
        words(|w| port::frame_end(&[], 1, w)),
        [10, 1, 1, 0, 0, 0, 0, 0]
    );
    assert_eq!((port::remaining(&[], 1), port::has_frame(&[], 1)), (0, 0));
    assert_eq!(
        words(|w| port::param_step(&[], 1, w)),
        [10, 1, 1, 0, 0, 0, 0, 0]
    );
    assert_eq!(room, [0x11; 3]);
}

#[test]
fn a_mark_beyond_its_room_comes_before_no_type() {
    let mut room = [0x11; 3];
    for (fill, refusal) in [(4, [10, 4, 4, 3]), (3, [3, 0, 6, 0])] {
        let full = words(|w| port::write_dss_full(1, fill, 6, 0, b"", &mut room, w));
        let wrote = words(|w| port::write_dss(1, fill, 6, 0, b"", &mut room, w));
        assert_eq!((&full[..4], &wrote[..4]), (&refusal[..], &refusal[..]));
    }
    assert_eq!(room, [0x11; 3]);
}

#[test]
fn places_in_a_list_of_objects() {
    let run = hex("0004200D 00032412");
    let all = words(|w| port::objects(&run, &mut [], &mut [KEPT; 2 * OBJECT_WORDS], w));
    assert_eq!(all, [5, 4, 3, 4, 0x2412, 0, 0, 0]);
    let mut row = [KEPT; 2 * OBJECT_WORDS];
    let list = words(|w| port::parameters(&run, &mut [], &mut row, w));
    assert_eq!(list, [0, 0, 1, 0, 0, 0, 0, 0]);
    assert_eq!(row[..OBJECT_WORDS], [0, 0, 0x200D, 0, 4, 0, 4, 0]);
    assert_eq!(row[OBJECT_WORDS..], [KEPT; OBJECT_WORDS]);
}

#[test]
fn every_continuation_length() {
    for raw in 0..=0xFFFFu16 {
        let full = raw == 0x7FFF || raw == 0xFFFF;
        assert_eq!(
            port::decode_dss_length(raw),
            if raw == 0xFFFF { 32767 } else { raw }
        );
        assert_eq!(port::is_full_continuation_len(raw), full as u8);
        let len = if full { 32767 } else { raw as usize };
        assert_eq!(port::decode_continuation_len(raw), len);
        let decision = if full { 2 } else { (raw > 1) as u8 };
        assert_eq!(port::decide_continuation(raw), decision);
    }
}

#[test]
fn sizes_above_all() {
    // The longest payload whose frame is no longer than 2^64 - 1 bytes, and its neighbours.
    let longest = 18_445_618_139_441_922_009;
    assert_eq!(port::frame_size(longest - 1), usize::MAX - 1);
    assert_eq!(port::frame_size(longest), usize::MAX);
    assert_eq!(port::frame_size(longest + 1), usize::MAX);
    assert_eq!(port::frame_size(usize::MAX), usize::MAX);
    assert_eq!(port::object_total_length(usize::MAX), usize::MAX);
    assert_eq!(port::builder_total_length(2_147_483_643), 2_147_483_651);
    assert_eq!(port::builder_total_length(2_147_483_644), 2_147_483_654);
    assert_eq!(
        port::builder_total_length(140_737_488_355_324),
        140_737_488_355_336
    );
    for len in [0, 32761, 32762, 65526, 65527] {
        assert_eq!(
            port::frame_size(len),
            build_dss_object(1, false, &pattern(len)).len()
        );
    }
}

#[test]
fn a_walk_over_parameters() {
    let data = hex("0005 2412 01 8006 2413 0002 0203 0004 2414 00");
    let object = DdmObject {
        code_point: 0x2001,
        data: data.clone(),
    };
    let (mut at, mut found) = (0, Vec::new());
    loop {
        let step = words(|w| port::param_step(&data, at, w));
        if step[0] != 0 {
            assert_eq!(step, [11, 17, 0, 0, 0, 0, 0, 0]);
            break;
        }
        let [_, next, code_point, in_work, from, len, consumed, _] = step;
        assert_eq!((in_work, next), (0, at as u64 + consumed));
        found.push((
            code_point as u16,
            data[from as usize..][..len as usize].to_vec(),
        ));
        at = next as usize;
    }
    let listed: Vec<_> = object
        .parameters()
        .into_iter()
        .map(|p| (p.code_point, p.data))
        .collect();
    assert_eq!(found, listed);
    assert_eq!(found.len(), 3);
}

#[test]
fn lengths_and_markers() {
    let says = |digits: &str| words(|w| port::parse_marshaled_length(&hex(digits), w));
    assert_eq!(says("00032412"), [0, 0, 3, 4, 0, 0, 0, 0]);
    assert_eq!(says("8008241200008000"), [0, 0, 0x8008, 8, 0, 0, 0, 0]);
    assert_eq!(says("8004241B0102"), [0, 0, 6, 4, 0, 0, 0, 0]);
    assert_eq!(says("80032412"), [6, 0, 3, 0, 0, 0, 0, 0]);
    let mut data = pattern(32760);
    data[32757..32759].copy_from_slice(&[0x7F, 0xFF]);
    let mut room = vec![0; 32758];
    let stripped = words(|w| port::strip_markers(&data, &mut room, w));
    assert_eq!(stripped, [0, 0, 32758, 0, 0, 0, 0, 0]);
    assert_eq!(room, [&data[..32757], &data[32759..]].concat());
    assert_eq!(
        words(|w| port::strip_markers(&data, &mut [], w))[..3],
        [9, 0, 32758]
    );
    let run = [&hex("8004241B")[..], &data].concat();
    let step = words(|w| port::param_step(&run, 0, w));
    assert_eq!(step, [0, 32764, 0x241B, 1, 0, 32758, 32764, 0]);
}

#[test]
fn frame_ends() {
    let run = hex("0006D0020007 0007D0060007FF 0007");
    assert_eq!(
        words(|w| port::frame_end(&run, 6, w)),
        [0, 0, 13, 0, 0, 0, 0, 0]
    );
    assert_eq!(
        words(|w| port::frame_end(&run, 13, w)),
        [1, 13, 0, 0, 0, 0, 0, 0]
    );
    assert_eq!(
        words(|w| port::first_frame_end(&run, w)),
        [0, 0, 6, 0, 0, 0, 0, 0]
    );
}

#[test]
fn a_frame_that_is_never_whole() {
    let (before, frame) = (hex("0006D0020007"), full_segments(1, 1));
    let run = [&before[..], &frame].concat();
    let (mut room, mut row) = ([0x11; 4], [KEPT; 2 * RECORD_WORDS]);
    // the place is the length's, and the position stays
    let dead = [16, 6 + 32767, 0, 0, 0, 0, 0, 0];
    assert_eq!(words(|w| port::frame_end(&run, 6, w)), dead);
    assert_eq!(words(|w| port::next_frame(&run, 6, &mut room, w)), dead);
    assert_eq!(port::has_frame(&run, 6), 0);
    let first = words(|w| port::first_frame_end(&frame, w));
    let changed = words(|w| port::change_request(&frame, 0x2412, &[], &mut room, w));
    assert_eq!((first, changed), ([16, 32767, 0, 0, 0, 0, 0, 0], first));
    // one byte less, and it isn't whole yet
    let cut = &run[..run.len() - 1];
    let waits = [1, 6, 0, 0, 0, 0, 0, 0];
    assert_eq!(words(|w| port::frame_end(cut, 6, w)), waits);
    assert_eq!(words(|w| port::next_frame(cut, 6, &mut room, w)), waits);
    // it ends a list, and is no entry
    let all = words(|w| port::read_all_frames(&run, 0, &mut room, &mut row, w));
    assert_eq!(all, [0, 6, 1, 0, 0, 0, 0, 0]);
    let none = words(|w| port::read_all_frames(&run, 6, &mut room, &mut row[RECORD_WORDS..], w));
    assert_eq!(none, [0, 6, 0, 0, 0, 0, 0, 0]);
    let salvaged = words(|w| port::salvage(&run, &mut room, &mut row, w));
    assert_eq!(salvaged, [0, 0, 1, 0, 6, 0, 0, 0]);
    assert_eq!(row[..RECORD_WORDS], [0, 0, 6, 2, 7, 0, 1, 0, 0, 6]);
    let kept = &[KEPT; RECORD_WORDS][..];
    assert_eq!((room, &row[RECORD_WORDS..]), ([0x11; 4], kept));
}

#[test]
fn a_changed_parameter() {
    let data = hex("0005 2412 01 0004 2413 0005 2412 02");
    let changed = hex("0005 2412 01 0006 2413 F0F4 0005 2412 02");
    assert_eq!(
        words(|w| port::change_param_len(&data, 0x2413, 2, w)),
        [0, 0, 16, 0, 0, 0, 0, 0]
    );
    let mut room = [0x11; 18];
    let short = words(|w| port::change_param(&data, 0x2413, &[0xF0, 0xF4], &mut room[..15], w));
    assert_eq!((short, room), ([9, 0, 16, 0, 0, 0, 0, 0], [0x11; 18]));
    let laid = words(|w| port::change_param(&data, 0x2413, &[0xF0, 0xF4], &mut room, w));
    assert_eq!(laid, [0, 0, 16, 0, 0, 0, 0, 0]);
    assert_eq!(room.to_vec(), [&changed[..], &[0x11; 2]].concat());
    // refused: nothing is laid down, and only the place tells one 17 from another
    let mut room = [0x11; 40];
    for (digits, code_point, refusal) in [
        ("0005 2412 01 0004 2413", 0x2414, [11, 0]),
        ("0005 2412 01 0003 2413", 0x2414, [17, 5]),
        ("0005 2412 01 8004 2413", 0x2412, [17, 5]),
    ] {
        let data = hex(digits);
        let expected = [refusal[0], refusal[1], 0, 0, 0, 0, 0, 0];
        let answer = words(|w| port::change_param(&data, code_point, b"0412", &mut room, w));
        let asked = words(|w| port::change_param_len(&data, code_point, 4, w));
        assert_eq!((answer, asked), (expected, expected));
        let frame = build_dss_object(1, false, &build_ddm_object(0x2001, &data));
        let place = if refusal[0] == 17 { 10 + refusal[1] } else { 0 };
        let answer = words(|w| port::change_request(&frame, code_point, b"0412", &mut room, w));
        assert_eq!(answer, [refusal[0], place, 0, 0, 0, 0, 0, 0]);
    }
    assert_eq!(room, [0x11; 40]);
    assert_eq!(
        words(|w| port::change_param_len(&data, 0x2412, usize::MAX, w)),
        [0, 0, u64::MAX, 0, 0, 0, 0, 0]
    );
    assert_eq!(
        words(|w| port::change_param_len(&data, 0x2412, usize::MAX - 21, w)),
        [0, 0, u64::MAX, 0, 0, 0, 0, 0]
    );
    assert_eq!(
        words(|w| port::change_param_len(&data, 0x2412, usize::MAX - 22, w)),
        [0, 0, u64::MAX - 1, 0, 0, 0, 0, 0]
    );
}

#[test]
fn a_changed_request() {
    let frame = hex("000F D063 0001 0009 2001 0005 2412 01");
    let mut room = [0x11; 20];
    let short = words(|w| port::change_request(&frame, 0x2412, &hex("F0F4"), &mut room[..15], w));
    assert_eq!((short, room), ([9, 0, 16, 0, 0, 0, 0, 0], [0x11; 20]));
    let laid = words(|w| port::change_request(&frame, 0x2412, &hex("F0F4"), &mut room, w));
    assert_eq!(laid, [0, 0, 16, 0, 0, 0, 0, 0]);
    assert_eq!(
        room.to_vec(),
        hex("0010 D063 0001 000A 2001 0006 2412 F0F4 11111111")
    );
    let full = words(|w| port::change_request(&frame, 0x2412, &pattern(65510), &mut [], w));
    assert_eq!(full, [18, 0, 0, 0, 0, 0, 0, 0]);
    let cut = words(|w| port::change_request(&frame[..14], 0x2412, &[], &mut room, w));
    assert_eq!(cut, [1, 0, 0, 0, 0, 0, 0, 0]);
    let mut few = [KEPT; ANSWER_WORDS - 1];
    assert_eq!(
        port::change_request(&frame, 0x2412, &[], &mut [0; 14], &mut few),
        0
    );
    assert_eq!(
        (port::change_param_len(&[], 0x2412, 0, &mut few), few),
        (11, [KEPT; ANSWER_WORDS - 1])
    );
}
