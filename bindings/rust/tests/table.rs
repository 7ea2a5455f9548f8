//! The sixteen cases of the specification, P1 to P16, in its order.
mod common;
use common::hex;
use lattrugone::ddm::DdmObject;
use lattrugone::dss::{salvage, DssReader, DssType, Entry};
use lattrugone::ProtoError::{self, InvalidDssType, InvalidMagic, LengthTooShort, Other};

/// A frame as one line: type, flags, correlation, segments, length, payload, and the position behind it.
fn line(run: &str) -> Result<Option<String>, (ProtoError, usize)> {
    let mut reader = DssReader::new(hex(run));
    let read = reader.next_frame_counted();
    let (frame, segments) = match read.map_err(|error| (error, reader.position()))? {
        Some(read) => read,
        None => {
            assert_eq!(reader.position(), 0);
            return Ok(None);
        }
    };
    assert_eq!(frame.span(), 0..reader.position());
    let (head, at) = (frame.header, reader.position());
    let flag = |set, letter| if set { letter } else { '-' };
    let flags: String = [
        flag(head.flags.chained, 'c'),
        flag(head.flags.continue_on_error, 'e'),
        flag(head.flags.same_correlation, 's'),
    ]
    .iter()
    .collect();
    let payload: String = frame.payload.iter().map(|b| format!("{b:02X}")).collect();
    let (kind, id, length) = (head.dss_type, head.correlation_id, head.length);
    Ok(Some(format!(
        "{kind:?} {flags} {id} seg {segments} length {length} [{payload}] to {at}"
    )))
}

fn reads(run: &str, expected: &str) {
    assert_eq!(line(run), Ok(Some(expected.to_string())), "{run}");
}

fn refuses(run: &str, error: ProtoError, position: usize) {
    assert_eq!(line(run), Err((error, position)), "{run}");
}

#[test]
fn p1_to_p7_one_head() {
    assert_eq!(line(""), Ok(None));
    reads("0006D0020007", "Reply --- 7 seg 1 length 6 [] to 6");
    refuses("0006D1020007", InvalidMagic(209), 0);
    refuses("0006D0060007", InvalidDssType(6), 0);
    refuses("0005D0020007", LengthTooShort(5), 0);
    refuses("0005D1020007", InvalidMagic(0xD1), 0);
    assert_eq!(line("0007D0060007"), Ok(None));
}

/// W-210: a request that wants no reply, alone; with an object that it absorbs, as P10, or that stands by itself, as P11; with one of
/// its own type, as P9; and what isn't absorbed.
#[test]
fn a_request_that_wants_no_reply() {
    let (first, alone) = ("0006D0050001", "NoReply --- 1 seg 1 length 6 [] to 6");
    reads(first, alone);
    assert_eq!(line("0007D0050001"), Ok(None));
    let behind = |second: &str| format!("{first} {second}");
    let object = "NoReply --- 1 seg 2 length 6 [00042414] to 16";
    reads(&behind("000AD0130001 00042414"), object);
    reads(&behind("000BD0130001 00052414C1"), alone);
    let own = "NoReply c-- 1 seg 2 length 6 [BB] to 13";
    reads(&behind("0007D0550001BB"), own);
    for other in ["0006D0110001", "0006D0120001", "0006D0140001"] {
        reads(&behind(other), alone);
    }
    for (format, name) in [
        ("01", "Request"),
        ("02", "Reply"),
        ("03", "Object"),
        ("04", "Communication"),
    ] {
        let run = format!("0006D0{format}0001 0006D0150001");
        reads(&run, &format!("{name} --- 1 seg 1 length 6 [] to 6"));
    }
}

#[test]
fn p8_zeros_behind_a_frame() {
    let run = "0006D0020007 000000000000";
    refuses(run, InvalidMagic(0), 6);
    let found = salvage(&hex(run));
    match &found.entries[..] {
        [Entry::Frame { frame, segments }, Entry::Refused { place, end, error }] => {
            let head = &frame.header;
            assert_eq!((head.dss_type, head.correlation_id), (DssType::Reply, 7));
            assert_eq!((frame.payload.len(), *segments), (0, 1));
            assert_eq!((*place, *end, error), (6, 6, &InvalidMagic(0)));
            assert_eq!(frame.span(), 0..6);
        }
        other => panic!("{other:?}"),
    }
    assert_eq!(found.tail, 6);
}

#[test]
fn p9_to_p12_what_follows() {
    reads(
        "0007D0030001AA 0007D0530001BB",
        "Object c-- 1 seg 2 length 7 [AABB] to 14",
    );
    reads(
        "0006D0020001 000AD013000100042414",
        "Reply --- 1 seg 2 length 6 [00042414] to 16",
    );
    reads(
        "0006D0020001 000BD013000100052414C1",
        "Reply --- 1 seg 1 length 6 [] to 6",
    );
    reads(
        "000AD00300018004241B 0009D01300017FFEC1",
        "Object --- 1 seg 2 length 10 [8004241BC1] to 19",
    );
}

#[test]
fn p13_to_p16_objects() {
    let parse = |bytes: &str| DdmObject::parse(&hex(bytes)).map(|(o, n)| (o.code_point, o.data, n));
    assert_eq!(parse("0004200D"), Ok((0x200D, vec![], 4)));
    assert_eq!(parse("8005241201C1"), Ok((0x2412, vec![0xC1], 6)));
    let text = |text: &str| Err(Other(text.to_string()));
    assert_eq!(
        parse("80032412"),
        text("extended DDM header length 3 is less than minimum 4")
    );
    let inline = "DDM length 3 is less than header size 4 for code point 0x2412";
    assert_eq!(parse("00032412"), text(inline));
}
