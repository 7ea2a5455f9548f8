//! One parameter changed: of an object, of a request already built.
mod common;
use common::{full_segments, hex, pattern, Numbers};
use lattrugone::ddm::{build_ddm_object, build_param, DdmObject};
use lattrugone::dss::{build_dss_request, change_request, DssReader};
use lattrugone::ProtoError::{self, *};

const ROW: u16 = 0x147A;

/// Data of three parameters, a row between two others of 6 and 14 bytes.
fn data(row: &[u8]) -> Vec<u8> {
    let (before, behind) = (
        build_param(0x0010, b"ab"),
        build_param(0x2110, b"LATTRUGONE"),
    );
    [before, build_param(ROW, row), behind].concat()
}

fn object(data: Vec<u8>) -> DdmObject {
    DdmObject {
        code_point: 0x2412,
        data,
    }
}

fn framed(data: &[u8]) -> Vec<u8> {
    build_dss_request(0xABCD, false, &build_ddm_object(0x2412, data))
}

fn request(row: &[u8]) -> Vec<u8> {
    framed(&data(row))
}

fn unsound(place: usize) -> ProtoError {
    UnsoundData { place }
}

/// Both sides of where the frame goes on in a second segment, the object's header grows, and the row's own does.
const LENGTHS: [usize; 10] = [0, 4, 32733, 32734, 32739, 32740, 32763, 32764, 40000, 98000];

#[test]
fn what_is_altered_is_what_is_built_with_the_new_value() {
    for old in LENGTHS {
        let (built, data_before) = (request(&pattern(old)), object(data(&pattern(old))));
        for new in LENGTHS {
            let row = pattern(new);
            assert_eq!(
                change_request(&built, ROW, &row),
                Ok(request(&row)),
                "{old} to {new}"
            );
            assert_eq!(data_before.with_param(ROW, &row), Ok(object(data(&row))));
        }
    }
}

#[test]
fn headers_and_segments_follow_the_size() {
    let starts = |new: usize, len: usize| {
        let frame = change_request(&request(b"0412"), ROW, &pattern(new)).unwrap();
        (frame.len(), frame[..len].to_vec())
    };
    assert_eq!(starts(4, 10), (38, hex("0026 D001 ABCD 0020 2412")));
    assert_eq!(starts(32733, 10), (32767, hex("7FFF D001 ABCD 7FF9 2412")));
    assert_eq!(starts(32734, 10), (32770, hex("FFFF D001 ABCD 7FFA 2412")));
    assert_eq!(starts(32739, 10), (32775, hex("FFFF D001 ABCD 7FFF 2412")));
    let longer = hex("FFFF D001 ABCD 8008 2412 00007FFC");
    assert_eq!(starts(32740, 14), (32780, longer));
    let row_at = |new: usize| {
        object(data(b""))
            .with_param(ROW, &pattern(new))
            .unwrap()
            .data
    };
    assert_eq!(row_at(32763)[6..10], hex("7FFF 147A"));
    assert_eq!(row_at(32764)[6..14], hex("8008 147A 00007FFC"));
    // and back
    assert_eq!(
        object(row_at(32764)).with_param(ROW, b""),
        Ok(object(data(b"")))
    );
}

#[test]
fn what_is_altered_is_read() {
    for new in LENGTHS {
        let frame = change_request(&request(b"0412"), ROW, &pattern(new)).unwrap();
        let mut reader = DssReader::new(frame);
        let payload = reader.next_frame().unwrap().expect("a whole frame").payload;
        let (read, consumed) = DdmObject::parse(&payload).unwrap();
        assert_eq!((consumed, reader.remaining()), (payload.len(), 0));
        let (mut old, found) = (object(data(b"0412")).parameters(), read.parameters());
        old[1].data = pattern(new);
        assert_eq!((read.code_point, found), (0x2412, old));
    }
}

#[test]
fn the_first_is_changed_and_all_others_stay_as_they_are() {
    // headers that the builder wouldn't write stay, but not of what is changed
    let before = object(hex(
        "8006 2413 0002 0203 0005 2412 01 0005 2412 02 800A 0010 000000000001 FF",
    ));
    let changed = |code_point, new: &str| before.with_param(code_point, &hex(new)).unwrap().data;
    let first = hex("8006 2413 0002 0203 0006 2412 F0F4 0005 2412 02 800A 0010 000000000001 FF");
    assert_eq!(changed(0x2412, "F0F4"), first);
    let extended = hex("0006 2413 0203 0005 2412 01 0005 2412 02 800A 0010 000000000001 FF");
    assert_eq!(changed(0x2413, "0203"), extended);
    let last = hex("8006 2413 0002 0203 0005 2412 01 0005 2412 02 0004 0010");
    assert_eq!(changed(0x0010, ""), last);
    assert_eq!(
        change_request(&framed(&before.data), 0x0010, b""),
        Ok(framed(&last))
    );
    // nor does an object's header stay that the builder wouldn't write
    let frame = hex("0016 D001 0001 8006 2412 000A 0006 147A F0F4 0004 2110");
    let after = hex("0013 D001 0001 000D 2412 0005 147A F0 0004 2110");
    assert_eq!(change_request(&frame, ROW, &[0xF0]), Ok(after));
}

#[test]
fn lists_of_parameters() {
    let mut numbers = Numbers(204);
    for _ in 0..500 {
        let mut list: Vec<(u16, Vec<u8>)> = Vec::new();
        for _ in 0..numbers.below(6) {
            let len = if numbers.below(30) == 0 {
                32700 + numbers.below(100)
            } else {
                numbers.below(9)
            };
            list.push((0x2410 + numbers.below(4) as u16, numbers.bytes(len)));
        }
        let built = |list: &[(u16, Vec<u8>)]| {
            list.iter()
                .flat_map(|(cp, data)| build_param(*cp, data))
                .collect()
        };
        let before: Vec<u8> = built(&list);
        let (code_point, len) = (0x2410 + numbers.below(4) as u16, numbers.below(9));
        let new = numbers.bytes(len);
        let expected = match list.iter().position(|(cp, _)| *cp == code_point) {
            Some(at) => {
                list[at].1 = new.clone();
                Ok(built(&list))
            }
            None => Err(NotFound),
        };
        assert_eq!(
            change_request(&framed(&before), code_point, &new),
            expected.clone().map(|data| framed(&data))
        );
        assert_eq!(
            object(before).with_param(code_point, &new),
            expected.map(object)
        );
    }
}

#[test]
fn format_byte_and_correlation_stay() {
    for old in [4, 40000] {
        let (mut frame, mut expected) = (request(&pattern(old)), request(b"0430"));
        for format in (0..=255u8).filter(|format| (1..=4).contains(&(format & 0x0F))) {
            // continue on error (0x20) and 0x80, which the writer never sets, too
            (frame[3], expected[3]) = (format, format);
            (frame[4], expected[4]) = (!format, !format);
            assert_eq!(
                change_request(&frame, ROW, b"0430").as_ref(),
                Ok(&expected),
                "{format:02X}"
            );
        }
    }
}

#[test]
fn data_that_are_refused() {
    let refused = |digits: &str| object(hex(digits)).with_param(0x2412, b"0412").unwrap_err();
    assert_eq!(refused(""), NotFound);
    assert_eq!(refused("0004 2413"), NotFound);
    for rest in [
        "00",
        "000424",
        "0003 2412",
        "0005 2412",
        "8003 2412",
        "800A 2412",
        "800C 2412 FFFFFFFFFFFFFFF0",
        "8004 2412",
        "8004 2413 C1",
    ] {
        // whether or not there is such a parameter before it
        assert_eq!(refused(rest), unsound(0), "{rest}");
        assert_eq!(refused(&format!("0004 2412 {rest}")), unsound(4), "{rest}");
        assert_eq!(
            refused(&format!("0005 2413 C1 {rest}")),
            unsound(5),
            "{rest}"
        );
        let frame = framed(&hex(&format!("0004 2412 {rest}")));
        assert_eq!(
            change_request(&frame, 0x2412, b"0412"),
            Err(unsound(14)),
            "{rest}"
        );
    }
}

#[test]
fn frames_that_are_refused() {
    let refused = |frame: &[u8]| change_request(frame, ROW, b"0412").unwrap_err();
    let built = request(b"0430");
    for len in 0..built.len() {
        assert_eq!(refused(&built[..len]), Incomplete);
    }
    let of = |digits: &str| refused(&hex(digits));
    assert_eq!(of("0006 D1 01 0001"), InvalidMagic(0xD1));
    assert_eq!(of("0007 D1 01 0001"), Incomplete);
    assert_eq!(of("0006 D0 26 0001"), InvalidDssType(6));
    assert_eq!(of("0005 D0 01 0001"), LengthTooShort(5));
    // the object
    let short = |expected, actual| BufferTooShort { expected, actual };
    assert_eq!(of("0006 D0 01 0001"), short(4, 0));
    assert_eq!(of("000B D0 01 0001 0006 2412 C1"), short(6, 5));
    let inline = "DDM length 3 is less than header size 4 for code point 0x2412";
    assert_eq!(of("000A D0 01 0001 0003 2412"), Other(inline.to_string()));
    let header = "extended DDM header length 3 is less than minimum 4";
    assert_eq!(of("000A D0 01 0001 8003 2412"), Other(header.to_string()));
    assert_eq!(
        of("0013 D0 01 0001 800D 2412 010000000000000000"),
        LengthTooLarge(13)
    );
    // what is left over comes first, at the first such byte
    assert_eq!(of("0006 D0 01 0001 00"), unsound(6));
    assert_eq!(of("000A D0 01 0001 0003 2412 00"), unsound(10));
    assert_eq!(of("000B D0 01 0001 0004 2412 00"), unsound(10));
    assert_eq!(of("000B D0 01 0001 0004 2412 00 FF"), unsound(10));
    assert_eq!(of("000A D0 01 0001 0004 2412 0006 D0 01 0001"), unsound(10));
    // also what the reader would absorb
    assert_eq!(
        of("000A D0 01 0001 0004 2412 000A D0 13 0001 0004 2414"),
        unsound(10)
    );
    // an object of raw length 0x8004 takes all that is left, and has no length of its own
    assert_eq!(of("000A D0 01 0001 8004 2412"), unsound(6));
    assert_eq!(of("000A D0 01 0001 8004 2412 00"), unsound(10));
    assert_eq!(of("000A D0 01 0001 0004 2412"), NotFound);
}

#[test]
fn frames_that_are_never_whole() {
    let refused = |frame: &[u8]| change_request(frame, ROW, b"0412").unwrap_err();
    for (segments, raw) in [(1, 0), (1, 1), (3, 0), (3, 1)] {
        let place = segments * 32767;
        let mut frame = full_segments(segments, raw);
        assert_eq!(refused(&frame[..place]), Incomplete);
        assert_eq!(refused(&frame[..place + 1]), Incomplete);
        assert_eq!(refused(&frame), DeadContinuation { place });
        // before a head that is refused, and before what is left over
        (frame[2], frame[3]) = (0xD1, 0x06);
        frame.extend(request(b"0412"));
        assert_eq!(refused(&frame), DeadContinuation { place });
    }
}

#[test]
fn a_place_counts_the_heads_of_continuations() {
    // two headers of 4 or 8 bytes and `len` bytes stand before the parameter at fault; each further segment starts with two bytes
    for (len, place) in [
        (32752, 6 + 32760),
        (32753, 8 + 32761),
        (32760, 8 + 32772),
        (65509, 8 + 65525),
        (65510, 10 + 65526),
    ] {
        let data = [build_param(0x0010, &pattern(len)), hex("0003 147A")].concat();
        assert_eq!(
            change_request(&framed(&data), 0x0010, b""),
            Err(unsound(place)),
            "{len}"
        );
    }
    // and so does what is left over behind the object
    for (len, place) in [(32756, 6 + 32760), (32757, 8 + 32761), (40000, 8 + 40008)] {
        let payload = [build_ddm_object(0x2412, &pattern(len)), vec![0; 9]].concat();
        let frame = build_dss_request(1, false, &payload);
        assert_eq!(
            change_request(&frame, ROW, b""),
            Err(unsound(place)),
            "{len}"
        );
    }
}

/// A payload of 32,761 bytes and one or more times 32,765 would be read as not whole.
#[test]
fn sizes_that_are_not_read_back() {
    let built = request(b"0412");
    for full in [65526, 65526 + 32765, 65526 + 2 * 32765] {
        // two headers of eight bytes, and two parameters of 20
        let new = full - 36;
        assert_eq!(
            change_request(&built, ROW, &pattern(new)),
            Err(UnreadableSize)
        );
        assert_eq!(change_request(&built, 0x2412, &pattern(new)), Err(NotFound));
        for new in [new - 1, new + 1] {
            assert_eq!(
                change_request(&built, ROW, &pattern(new)),
                Ok(request(&pattern(new)))
            );
        }
        assert!(object(data(b"")).with_param(ROW, &pattern(new)).is_ok());
        assert_eq!(
            change_request(&request(&pattern(new)), ROW, b""),
            Err(Incomplete)
        );
    }
    assert!(change_request(&built, ROW, &pattern(32733)).is_ok());
}

#[test]
fn texts_of_the_errors() {
    let dead = DeadContinuation { place: 32767 };
    let texts =
        [Incomplete, dead, NotFound, unsound(14), UnreadableSize].map(|error| error.to_string());
    assert_eq!(
        texts,
        [
            "frame isn't whole",
            "frame is never whole: continuation length of 0 or 1 at byte 32767",
            "no such parameter",
            "unsound data at byte 14",
            "changed frame would end in a full chunk"
        ]
    );
}
