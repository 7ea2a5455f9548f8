//! Measure, then take: what is measured is what is taken, into a room of just that length, by either's rules.
mod common;
use common::{full_segments, hex, pattern, Numbers};
use lattrugone::dss::{build_dss_object, salvage, DssReader, DssType, DssWriter, Entry, Rules};
use lattrugone::port::{self, ANSWER_WORDS};
use lattrugone::ProtoError::{InvalidMagic, LengthTooShort, NoRoom};

const RULES: [Rules; 2] = [Rules::Reader, Rules::Salvage];

/// A run of small and long frames, some that belong together, of which a few are spoilt.
fn run(numbers: &mut Numbers) -> Vec<u8> {
    let mut writer = DssWriter::new(1);
    for _ in 0..1 + numbers.below(5) {
        let len = match numbers.below(12) {
            0 => [32761, 32762, 65525, 65526, 65527][numbers.below(5)],
            _ => numbers.below(40),
        };
        let (chained, same) = (numbers.yes(), numbers.yes());
        let dss_type = [DssType::Reply, DssType::Object][numbers.below(2)];
        writer.write_dss_full(dss_type, chained, same, &numbers.bytes(len));
    }
    let mut run = writer.finish();
    if numbers.below(3) == 0 {
        let at = numbers.below(run.len());
        run[at] = numbers.below(256) as u8;
    }
    run
}

/// A head in short, a payload's length, the segments, and where the frame stood.
macro_rules! told {
    ($header:expr, $len:expr, $segments:expr, $span:expr) => {
        (format!("{:?}", $header), $len, $segments, $span)
    };
}

#[test]
fn what_is_measured_is_taken() {
    let mut numbers = Numbers(208);
    for _ in 0..3000 {
        let run = run(&mut numbers);
        for rules in RULES {
            let mut reader = DssReader::new(run.clone());
            loop {
                let at = reader.position();
                let measured = reader.measure(rules);
                assert_eq!(reader.position(), at, "measuring moves nothing");
                let Ok(Some(m)) = measured else {
                    let mut room = [0xEE; 3];
                    let taken = reader.take_into(rules, &mut room);
                    assert_eq!(format!("{measured:?}"), format!("{taken:?}"));
                    assert_eq!(room, [0xEE; 3]);
                    break;
                };
                if m.payload_len > 0 {
                    let needed = m.payload_len;
                    let mut short = vec![0xEE; needed - 1];
                    let refused = reader.take_into(rules, &mut short).unwrap_err();
                    assert_eq!(refused, NoRoom { needed });
                    assert!(short.iter().all(|b| *b == 0xEE) && reader.position() == at);
                }
                let mut room = vec![0xEE; m.payload_len + numbers.below(2)];
                let t = reader.take_into(rules, &mut room).unwrap().unwrap();
                assert_eq!(
                    told!(t.header, t.payload_len, t.segments, t.span.clone()),
                    told!(m.header, m.payload_len, m.segments, m.span.clone())
                );
                assert_eq!((t.span.start, t.span.end), (at, reader.position()));
                assert!(room[m.payload_len..].iter().all(|b| *b == 0xEE));
            }
        }
    }
}

#[test]
fn by_the_readers_rules_it_is_next_frame() {
    let mut numbers = Numbers(1208);
    for _ in 0..3000 {
        let run = run(&mut numbers);
        let (mut one, mut other) = (DssReader::new(run.clone()), DssReader::new(run));
        loop {
            let needed = other.measure(Rules::Reader).ok().flatten();
            let mut room = vec![0; needed.map_or(0, |m| m.payload_len)];
            let taken = other.take_into(Rules::Reader, &mut room);
            let read = one.next_frame_counted();
            assert_eq!(one.position(), other.position());
            let (Ok(Some((frame, segments))), Ok(Some(t))) = (&read, &taken) else {
                assert_eq!(read.map(|_| ()), taken.map(|_| ()));
                break;
            };
            assert_eq!(
                told!(frame.header, frame.payload.len(), *segments, frame.span()),
                told!(t.header, t.payload_len, t.segments, t.span.clone())
            );
            assert!(frame.payload == room);
        }
    }
}

#[test]
fn by_salvages_rules_it_is_salvages_entries() {
    let mut numbers = Numbers(2208);
    for _ in 0..3000 {
        let run = run(&mut numbers);
        let mut reader = DssReader::new(run.clone());
        for entry in salvage(&run).entries {
            let Entry::Frame { frame, segments } = entry else {
                let Entry::Refused { place, error, .. } = entry else {
                    unreachable!()
                };
                assert_eq!(reader.measure(Rules::Salvage).unwrap_err(), error);
                assert_eq!(reader.position(), place);
                break;
            };
            let mut room = vec![0; frame.payload.len()];
            let t = reader
                .take_into(Rules::Salvage, &mut room)
                .unwrap()
                .unwrap();
            assert_eq!(
                told!(frame.header, frame.payload.len(), segments, frame.span()),
                told!(t.header, t.payload_len, t.segments, t.span.clone())
            );
            assert!(frame.payload == room);
        }
    }
}

#[test]
fn the_rules_differ_at_a_full_last_chunk_and_at_a_refused_head() {
    // 65,526 bytes and a reply: one frame of three segments, or two frames
    let mut full = build_dss_object(1, false, &pattern(65526));
    full.extend(hex("0006 D002 0007"));
    let reader = DssReader::new(full);
    let lens = RULES.map(|rules| {
        let m = reader.measure(rules).unwrap().unwrap();
        (m.payload_len, m.segments, m.span.end)
    });
    assert_eq!(lens, [(65530, 3, 65540), (65526, 2, 65534)]);

    // P8: the head behind the frame is refused, and the reader's position stands there
    let mut reader = DssReader::new(hex("0006 D002 0007 0000 0000 0000"));
    assert_eq!(
        reader.measure(Rules::Reader).unwrap_err(),
        InvalidMagic(0x00)
    );
    assert_eq!(reader.position(), 0);
    assert!(reader.measure(Rules::Salvage).unwrap().is_some());
    assert!(reader.take_into(Rules::Reader, &mut []).is_err());
    assert_eq!(reader.position(), 6);

    // a length of 5, of a frame and behind one
    let mut reader = DssReader::new(hex("0005 D002 0007"));
    for rules in RULES {
        assert_eq!(reader.measure(rules).unwrap_err(), LengthTooShort(5));
        assert_eq!(
            reader.take_into(rules, &mut []).unwrap_err(),
            LengthTooShort(5)
        );
    }
}

#[test]
fn a_frame_that_isnt_whole_is_none_yet_or_ever() {
    for run in [hex("0007 D002 0007"), full_segments(2, 1)] {
        let mut reader = DssReader::new(run);
        for rules in RULES {
            assert!(reader.measure(rules).unwrap().is_none());
            assert!(reader.take_into(rules, &mut [0; 8]).unwrap().is_none());
            assert_eq!(reader.position(), 0);
        }
    }
}

/// Any number but 0 is salvage's; 1 and 16 are told apart, 16 with its place; and a position beyond the run is 10.
#[test]
fn functions_of_the_archive() {
    let mut words = [0; ANSWER_WORDS];
    let p8 = hex("0006 D002 0007 0000 0000 0000");
    for rules in 0..=255 {
        let number = port::measure_frame(rules, &p8, 0, &mut words);
        assert_eq!(number, if rules == 0 { 2 } else { 0 });
        assert_eq!(port::take_frame(rules, &p8, 0, &mut [], &mut words), number);
        assert_eq!(port::measure_frame(rules, &p8, 13, &mut words), 10);
        assert_eq!(words, [10, 13, 13, 12, 0, 0, 0, 0]);
    }
    for (run, due) in [
        (full_segments(1, 1), [16, 32767]),
        (hex("0007 D002 0007"), [1, 0]),
    ] {
        for rules in [0, 1] {
            port::measure_frame(rules, &run, 0, &mut words);
            assert_eq!(words[..2], due);
            port::take_frame(rules, &run, 0, &mut [], &mut words);
            assert_eq!(words[..2], due);
        }
    }
}
