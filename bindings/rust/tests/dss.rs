//! Heads, the writer, the reader.
mod common;
use common::{full_segments, hex, pattern};
use lattrugone::dss::*;
use lattrugone::ProtoError::{BufferTooShort, InvalidDssType, InvalidMagic, LengthTooShort};

const TYPES: [DssType; 5] = [
    DssType::Request,
    DssType::Reply,
    DssType::Object,
    DssType::Communication,
    DssType::NoReply,
];

fn flags(chained: bool, continue_on_error: bool, same_correlation: bool) -> DssFlags {
    DssFlags {
        chained,
        continue_on_error,
        same_correlation,
    }
}

#[test]
fn types_and_flags_of_every_byte() {
    for b in 0..=255u8 {
        let low = b & 0x0F;
        let found = TYPES.iter().find(|t| t.to_byte() == low);
        assert_eq!(
            DssType::from_byte(b),
            found.copied().ok_or(InvalidDssType(low))
        );
        assert_eq!(DssFlags::from_byte(b).to_byte(), b & 0x70);
    }
    assert_eq!(DssFlags::none(), flags(false, false, false));
    assert_eq!(DssFlags::from_byte(0x41), flags(true, false, false));
    assert_eq!(DssFlags::from_byte(0x23), flags(false, true, false));
    assert_eq!(DssFlags::from_byte(0x13), flags(false, false, true));
}

#[test]
fn heads() {
    let head = DssHeader {
        length: 0x1234,
        dss_type: DssType::Object,
        flags: flags(true, false, true),
        correlation_id: 0xABCD,
    };
    assert_eq!(head.serialize().to_vec(), hex("1234 D0 53 ABCD"));
    assert_eq!(DssHeader::parse(&head.serialize()), Ok(head.clone()));
    // FFFF is a full segment; the length goes out as it is, and so do lengths that no segment has
    let full = DssHeader {
        length: 0xFFFF,
        ..head.clone()
    };
    assert_eq!(full.serialize()[..2], [0xFF, 0xFF]);
    assert_eq!(DssHeader::parse(&full.serialize()).unwrap().length, 32767);
    assert_eq!(
        DssHeader::parse(&hex("8000 D0 01 0001")).unwrap().length,
        0x8000
    );
    assert_eq!(DssHeader::parse(&hex("0000 D0 01 0001")).unwrap().length, 0);
    let short = BufferTooShort {
        expected: 6,
        actual: 5,
    };
    assert_eq!(DssHeader::parse(&hex("0006 D0 02 00")), Err(short));
    assert_eq!(
        DssHeader::parse(&hex("0006 D1 02 0007")),
        Err(InvalidMagic(0xD1))
    );
    assert_eq!(
        DssHeader::parse(&hex("0006 D0 60 0007")),
        Err(InvalidDssType(0))
    );
}

#[test]
fn each_way_to_write() {
    let written = |write: fn(&mut DssWriter)| {
        let mut writer = DssWriter::new(2);
        write(&mut writer);
        writer.finish()
    };
    assert_eq!(
        written(|w| w.write_request(b"A", true)),
        hex("0007 D0 41 0002 41")
    );
    assert_eq!(
        written(|w| w.write_request(b"", false)),
        hex("0006 D0 01 0002")
    );
    assert_eq!(
        written(|w| w.write_object(b"A", true)),
        hex("0007 D0 43 0002 41")
    );
    assert_eq!(
        written(|w| w.write_object_same_corr(b"A", false)),
        hex("0007 D0 13 0002 41")
    );
    assert_eq!(
        written(|w| w.write_request_no_reply(b"A", true)),
        hex("0007 D0 45 0002 41")
    );
    let next = written(|w| w.write_request_next_same_corr(b"A", true));
    assert_eq!(next, hex("0007 D0 51 0002 41"));
    assert_eq!(
        written(|w| w.write_dss(DssType::Reply, true, b"A")),
        hex("0007 D0 42 0002 41")
    );
    let full = written(|w| w.write_dss_full(DssType::Communication, false, true, b"A"));
    assert_eq!(full, hex("0007 D0 14 0002 41"));
    assert_eq!(build_dss_request(2, true, b"A"), hex("0007 D0 41 0002 41"));
    assert_eq!(build_dss_object(2, false, b"A"), hex("0007 D0 03 0002 41"));
}

#[test]
fn the_writer_keeps_its_state() {
    let mut writer = DssWriter::new(65534);
    assert_eq!((writer.correlation_id(), writer.data().len()), (65534, 0));
    writer.write_request(b"A", false);
    assert_eq!(writer.next_correlation_id(), 65535);
    writer.write_object(b"B", false);
    assert_eq!(writer.next_correlation_id(), 0);
    let both = hex("0007 D0 01 FFFE 41 0007 D0 03 FFFF 42");
    assert_eq!(writer.data(), both);
    assert_eq!(writer.finish(), both);
    assert_eq!((writer.data().len(), writer.correlation_id()), (0, 0));
    writer.set_correlation_id(9);
    let mut copy = writer.clone();
    copy.write_request(b"", false);
    assert_eq!(
        (writer.data().len(), copy.finish()),
        (0, hex("0006 D0 01 0009"))
    );
}

/// Both sides of each edge: a payload's length, its frame's, the first length, and where a continuation stands with its length.
#[test]
fn edges_of_segments() {
    let edges = [
        (32761, 32767, 0x7FFF, None),
        (32762, 32770, 0xFFFF, Some(0x0003)),
        (65525, 65533, 0xFFFF, Some(0x7FFE)),
        (65526, 65534, 0xFFFF, Some(0x7FFF)),
        (65527, 65537, 0xFFFF, Some(0xFFFF)),
    ];
    for (payload, size, first, continuation) in edges {
        let frame = build_dss_object(1, false, &pattern(payload));
        let at = |place: usize| u16::from_be_bytes([frame[place], frame[place + 1]]);
        assert_eq!((frame.len(), at(0)), (size, first));
        assert_eq!(continuation, (size > 32767).then(|| at(32767)));
        let mut reader = DssReader::new(frame.clone());
        let whole = payload != 65526;
        assert_eq!(reader.has_complete_frame(), whole);
        let end = DssReader::first_complete_frame_len(&frame);
        assert_eq!(end, whole.then_some(size));
        let read = reader.next_frame().unwrap().map(|frame| frame.payload);
        assert_eq!(read, whole.then(|| pattern(payload)));
    }
}

#[test]
fn what_is_written_is_read() {
    for len in [
        0, 1, 4, 5, 100, 32760, 32761, 32762, 65525, 65527, 98290, 98292, 200000,
    ] {
        for (at, dss_type) in TYPES.into_iter().enumerate() {
            let (chained, same) = (at % 2 == 1, at / 2 == 1);
            let mut writer = DssWriter::new(len as u16);
            writer.write_dss_full(dss_type, chained, same, &pattern(len));
            let mut reader = DssReader::new(writer.finish());
            let frame = reader.next_frame().unwrap().expect("a whole frame");
            assert_eq!(frame.header.dss_type, dss_type);
            assert_eq!(frame.header.flags, flags(chained, false, same));
            assert_eq!(frame.header.correlation_id, len as u16);
            assert_eq!(frame.header.length as usize, (len + 6).min(32767));
            assert_eq!(frame.payload, pattern(len));
            assert_eq!(reader.remaining(), 0);
        }
    }
}

#[test]
fn bytes_that_arrive_one_by_one() {
    let mut writer = DssWriter::new(1);
    for len in [3, 0, 32762] {
        writer.write_request(&pattern(len), false);
        writer.next_correlation_id();
    }
    let (mut reader, mut read) = (DssReader::new(Vec::new()), Vec::new());
    for b in writer.finish() {
        reader.extend(&[b]);
        if reader.has_complete_frame() {
            let frame = reader.next_frame().unwrap().expect("a whole frame");
            read.push((frame.header.correlation_id, frame.payload.len()));
        }
    }
    assert_eq!(read, [(1, 3), (2, 0), (3, 32762)]);
    assert_eq!(reader.remaining(), 0);
}

#[test]
fn all_frames_and_what_is_left() {
    let run = hex("000AD001000100042 00D 0006D0020007 0008D003");
    let mut reader = DssReader::new(run.clone());
    let frames = reader.read_all_frames().unwrap();
    let payloads: Vec<_> = frames.iter().map(|frame| frame.payload.clone()).collect();
    assert_eq!(payloads, [hex("0004200D"), vec![]]);
    assert_eq!(frames[1].header, DssHeader::parse(&run[10..]).unwrap());
    assert_eq!((reader.remaining(), reader.position()), (4, 16));
    assert_eq!(reader.read_all_frames().unwrap().len(), 0);
    assert_eq!(reader.into_remaining(), hex("0008D003"));
    assert_eq!(DssReader::new(Vec::new()).into_remaining(), []);
}

#[test]
fn a_refusal_refuses_all_frames() {
    let mut reader = DssReader::new(hex("0006D0020007 0006D0020008 0006D0060009"));
    assert_eq!(reader.read_all_frames().unwrap_err(), InvalidDssType(6));
    assert_eq!((reader.position(), reader.remaining()), (12, 6));
    assert_eq!(reader.next_frame().unwrap_err(), InvalidDssType(6));
}

/// Where db2-proto stops.
#[test]
fn lengths_below_six_are_refused() {
    for length in 0..6 {
        let own = [0, length, 0xD0, 2, 0, 7];
        let mut reader = DssReader::new(own.to_vec());
        assert!(reader.has_complete_frame());
        assert_eq!(
            DssReader::first_complete_frame_len(&own),
            Some(length as usize)
        );
        assert_eq!(
            reader.next_frame().unwrap_err(),
            LengthTooShort(length as u16)
        );
        let mut behind = hex("0006D0020001");
        behind.extend([0, length, 0xD0, 0x12, 0, 1]);
        let mut reader = DssReader::new(behind);
        assert_eq!(
            reader.next_frame().unwrap_err(),
            LengthTooShort(length as u16)
        );
        assert_eq!(reader.position(), 6);
    }
}

/// No frame is read, the reader stays where it is, and says this of the next frame.
fn reads_none(reader: &mut DssReader, dead_at: Option<usize>) {
    let position = reader.position();
    assert_eq!(reader.dead_at(), dead_at);
    assert!(!reader.has_complete_frame());
    assert!(reader.next_frame().unwrap().is_none());
    assert!(reader.next_frame_counted().unwrap().is_none());
    assert!(reader.read_all_frames().unwrap().is_empty());
    assert_eq!((reader.position(), reader.dead_at()), (position, dead_at));
}

#[test]
fn continuations_that_are_never_whole() {
    for (segments, raw) in [(1, 0), (1, 1), (3, 0), (3, 1)] {
        let place = segments * 32767;
        let mut run = full_segments(segments, raw);
        // magic and type aren't looked at before that
        for (magic, format) in [(0xD0, 0x03), (0xD1, 0x03), (0xD0, 0x06)] {
            (run[2], run[3]) = (magic, format);
            let mut reader = DssReader::new(run[..place].to_vec());
            reads_none(&mut reader, None);
            reader.extend(&run[place..=place]);
            reads_none(&mut reader, None);
            reader.extend(&run[place + 1..]);
            reads_none(&mut reader, Some(place));
            for _ in 0..2 {
                reader.extend(&hex("0006D0020007"));
                reads_none(&mut reader, Some(place));
            }
            reader.extend(&pattern(70000));
            reads_none(&mut reader, Some(place));
            assert_eq!(DssReader::first_complete_frame_len(&run), None);
            let left = reader.into_remaining();
            assert_eq!(left[..run.len()], run);
        }
    }
}

#[test]
fn continuations_that_may_become_whole() {
    // a length of 2 is the smallest: a last continuation with no bytes
    let run = full_segments(1, 2);
    let mut reader = DssReader::new(run.clone());
    assert_eq!(reader.dead_at(), None);
    assert_eq!(reader.next_frame().unwrap().unwrap().payload.len(), 32761);
    // the others wait for their bytes
    for raw in [3, 0x7FFE, 0x7FFF, 0x8000, 0xFFFF] {
        let run = full_segments(1, raw);
        reads_none(&mut DssReader::new(run), None);
    }
    // and so do those of which there is a part of a head
    for len in 0..6 {
        reads_none(&mut DssReader::new(run[..len].to_vec()), None);
    }
    assert_eq!(DssReader::first_complete_frame_len(&run[..5]), None);
}

#[test]
fn a_frame_before_one_that_is_never_whole() {
    let mut reader = DssReader::new(hex("0007D0020007C1 0006D0420008"));
    reader.extend(&full_segments(1, 1));
    // it is the next frame of which that is said
    assert_eq!(reader.dead_at(), None);
    let payload = reader.next_frame().unwrap().unwrap().payload;
    assert_eq!((payload, reader.dead_at()), (vec![0xC1], None));
    let frames = reader.read_all_frames().unwrap();
    assert_eq!((frames.len(), frames[0].header.correlation_id), (1, 8));
    assert_eq!(reader.position(), 13);
    reads_none(&mut reader, Some(13 + 32767));
    // nor of one that is refused
    let mut reader = DssReader::new(hex("0006D1020007"));
    reader.extend(&full_segments(1, 1));
    assert_eq!(reader.dead_at(), None);
    assert_eq!(reader.next_frame().unwrap_err(), InvalidMagic(0xD1));
    assert_eq!((reader.position(), reader.dead_at()), (0, None));
}

#[test]
fn what_is_absorbed() {
    let read = |run: &str| {
        let mut reader = DssReader::new(hex(run));
        let (frame, segments) = reader.next_frame_counted().unwrap().unwrap();
        (frame.payload, segments, frame.header.flags.chained)
    };
    // an object behind a request or a reply, and the same type; numbers are not compared
    assert_eq!(
        read("0007D0010001AA 0007D0130009BB"),
        (hex("AABB"), 2, false)
    );
    assert_eq!(
        read("0007D0020001AA 0007D0520001BB"),
        (hex("AABB"), 2, true)
    );
    // another type, same correlation clear, a part of a segment
    assert_eq!(read("0007D0030001AA 0007D0120001BB"), (hex("AA"), 1, false));
    assert_eq!(read("0007D0030001AA 0007D0030001BB"), (hex("AA"), 1, false));
    assert_eq!(read("0007D0030001AA 0008D0130001BB"), (hex("AA"), 1, false));
    // 7FFF is dropped as 7FFE is, and only behind 8004
    assert_eq!(
        read("000AD00300018004241B 0009D01300017FFFC1").0,
        hex("8004241BC1")
    );
    assert_eq!(
        read("000AD00300018008241B 0009D01300017FFEC1").0,
        hex("8008241B7FFEC1")
    );
}
