//! The salvage reading. Demand 3: of any run of written frames that stand by themselves, of any size, some of them spoilt, every
//! other frame is handed out as it was written, with one refusal at the first byte of each that is spoilt, and nothing else.
mod common;
use common::{full_segments, hex, pattern, Numbers};
use lattrugone::ddm::build_ddm_object;
use lattrugone::dss::{salvage, DssReader, DssType, DssWriter, Entry};
use lattrugone::ProtoError::{InvalidDssType, InvalidMagic, LengthTooShort};

/// An entry in short: a frame's format, correlation and payload, or a refusal's place.
#[derive(Debug, PartialEq)]
enum Found {
    Frame(u8, u16, Vec<u8>),
    Refused(usize),
}

/// The entries and the tail's place; where they stood, without gap or overlap from 0 to there.
fn found(run: &[u8]) -> (Vec<Found>, usize) {
    let all = salvage(run);
    let mut end = 0;
    for span in all.entries.iter().map(Entry::span) {
        assert!(
            span.start == end && span.start <= span.end,
            "{span:?} behind {end}"
        );
        end = span.end;
    }
    assert_eq!(end, all.tail);
    let short = |entry| match entry {
        Entry::Frame { frame, .. } => {
            let head = frame.header;
            let format = head.dss_type.to_byte() | head.flags.to_byte();
            Found::Frame(format, head.correlation_id, frame.payload)
        }
        Entry::Refused { place, .. } => Found::Refused(place),
    };
    (all.entries.into_iter().map(short).collect(), all.tail)
}

/// A payload with which a frame stands by itself though same correlation is set: more than one segment, or an object.
fn standing(numbers: &mut Numbers) -> Vec<u8> {
    if numbers.below(8) == 0 {
        let len = match numbers.below(4) {
            0 => 65526 + 32765 * numbers.below(2), // the last chunk is full
            _ => 32762 + numbers.below(40000),
        };
        return numbers.bytes(len);
    }
    let data = numbers.below(60) + 1;
    let code_point = 0x0101 + numbers.below(0xFEFE) as u16;
    build_ddm_object(code_point, &numbers.bytes(data))
}

/// Spoils the frame at the front of `bytes` so that its head is refused; no length field is touched.
fn spoil(numbers: &mut Numbers, bytes: &mut [u8]) {
    bytes[3] = numbers.below(256) as u8;
    if numbers.yes() {
        bytes[2] = bytes[2].wrapping_add(1 + numbers.below(255) as u8);
    } else {
        bytes[3] = (bytes[3] & 0xF0) | [0, 6, 7, 8, 9, 10, 11, 12, 13, 14, 15][numbers.below(11)];
    }
    let payload = bytes.len().min(32767);
    for b in &mut bytes[4..payload] {
        *b = numbers.below(256) as u8;
    }
}

fn run_of_frames(numbers: &mut Numbers) {
    const TYPES: [DssType; 5] = [
        DssType::Request,
        DssType::Reply,
        DssType::Object,
        DssType::Communication,
        DssType::NoReply,
    ];
    let (mut run, mut expected) = (Vec::new(), Vec::new());
    for _ in 0..numbers.below(12) {
        let (dss_type, chained, same) = (TYPES[numbers.below(5)], numbers.yes(), numbers.yes());
        let payload = if same {
            standing(numbers)
        } else {
            let len = numbers.below(40);
            numbers.bytes(len)
        };
        let mut writer = DssWriter::new(numbers.below(65536) as u16);
        writer.write_dss_full(dss_type, chained, same, &payload);
        let mut frame = writer.finish();
        if numbers.below(3) == 0 {
            spoil(numbers, &mut frame);
            expected.push(Found::Refused(run.len()));
        } else {
            let format = dss_type.to_byte() | (chained as u8) << 6 | (same as u8) << 4;
            expected.push(Found::Frame(format, writer.correlation_id(), payload));
        }
        run.extend(frame);
    }
    assert_eq!(found(&run), (expected, run.len()));
}

#[test]
fn demand_3() {
    let mut numbers = Numbers(3);
    for _ in 0..200 {
        run_of_frames(&mut numbers);
    }
}

#[test]
fn a_sound_run_is_read_as_the_reader_reads_it() {
    let mut writer = DssWriter::new(1);
    for len in [3, 0, 32762, 70000, 9] {
        writer.write_request(&pattern(len), true);
    }
    let run = writer.finish();
    let frames = DssReader::new(run.clone()).read_all_frames().unwrap();
    let salvaged = found(&run);
    let payloads: Vec<_> = frames
        .into_iter()
        .map(|frame| Found::Frame(0x41, 1, frame.payload))
        .collect();
    assert_eq!(salvaged, (payloads, run.len()));
}

/// A frame whose last chunk is full and what stands behind it: the reader takes that for one chunk more, salvage hands out both.
#[test]
fn a_last_chunk_may_be_full() {
    for full in [65526, 98291] {
        for behind in [0, 5, 32761, 32762, 65526] {
            let mut writer = DssWriter::new(1);
            writer.write_object(&pattern(full), false);
            let alone = writer.data().len();
            writer.write_object(&pattern(behind), false);
            let run = writer.finish();
            let frames = |payloads: &[usize]| {
                let found = |len: &usize| Found::Frame(3, 1, pattern(*len));
                payloads.iter().map(found).collect::<Vec<_>>()
            };
            assert_eq!(found(&run), (frames(&[full, behind]), run.len()));
            assert_eq!(found(&run[..alone]), (frames(&[full]), alone));
            assert!(DssReader::new(run[..alone].to_vec())
                .next_frame()
                .unwrap()
                .is_none());
            // spoilt, it is stepped over to its own end
            let mut spoilt = run.clone();
            spoilt[2] = 0xD1;
            let mut due = vec![Found::Refused(0)];
            due.extend(frames(&[behind]));
            assert_eq!(found(&spoilt), (due, run.len()));
        }
    }
}

/// What USING says to do where a frame has three segments or more: salvage of its bytes hands it out, or what it has swallowed.
#[test]
fn what_the_reader_swallows() {
    for lens in [
        [65526, 5],
        [98291, 0],
        [65526, 32762],
        [98290, 5],
        [65527, 70000],
    ] {
        let mut writer = DssWriter::new(1);
        for len in lens {
            writer.write_object(&pattern(len), false);
        }
        let run = writer.finish();
        let mut reader = DssReader::new(run.clone());
        let frame = reader.next_frame().unwrap().unwrap();
        let behind = reader.position();
        let full = (lens[0] - 32761) % 32765 == 0;
        let first: Vec<_> = lens[..if full { 2 } else { 1 }]
            .iter()
            .map(|len| Found::Frame(3, 1, pattern(*len)))
            .collect();
        assert_eq!(frame.payload.len() == lens[0], !full);
        assert_eq!(found(&run[..behind]), (first, behind));
    }
}

#[test]
fn why_an_entry_is_refused() {
    let run = hex("0006D1020007 0007D0060007FF 0006D0020008 0005D0020009 0006D0020001");
    let all = salvage(&run);
    let errors: Vec<_> = all
        .entries
        .iter()
        .filter_map(|entry| match entry {
            Entry::Refused { place, end, error } => Some((*place, *end, error.clone())),
            Entry::Frame { .. } => None,
        })
        .collect();
    let expected = [
        (0, 6, InvalidMagic(0xD1)),
        (6, 13, InvalidDssType(6)),
        (19, 19, LengthTooShort(5)),
    ];
    assert_eq!(errors, expected);
    // a length below 6 ends it
    assert_eq!((all.entries.len(), all.tail), (4, 19));
}

#[test]
fn no_entry_for_what_is_not_whole() {
    assert_eq!(found(&[]), (vec![], 0));
    let run = hex("0006D0020007 0008D0020008FF");
    assert_eq!(found(&run), (vec![Found::Frame(2, 7, vec![])], 6));
    // nor for what is never whole, whatever its head is and whatever stands behind it
    for magic in [0xD0, 0xD1] {
        let mut run = hex("0006D0020007");
        run.extend(full_segments(1, 1));
        run.extend(hex("0006D0020008"));
        run[8] = magic;
        assert_eq!(found(&run), (vec![Found::Frame(2, 7, vec![])], 6));
    }
}

#[test]
fn segments_are_counted() {
    let run = hex("0007D0030001AA 0007D0530001BB");
    let all = salvage(&run);
    assert!(matches!(
        &all.entries[..],
        [Entry::Frame { segments: 2, .. }]
    ));
}
