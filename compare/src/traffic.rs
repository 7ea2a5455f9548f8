//! Real traffic: the captures of the repository, read by the port and held to the lists beside them, which neither the port nor
//! its definitions made: `next_frame` and the objects of each payload to what the Rust reads (`oracle.txt`), the salvage reading
//! to the frames by DRDA volume 3's rule alone (`splitter.txt`), but for the frames of `misread.txt`. Where a last chunk is full, the
//! two part, and some capture has to have one. And the same with each continuation length spoilt in turn, to 0 and to 1: 16, where
//! the splitter has that length.
use crate::answers::ANSWER_WORDS;
use crate::port::RowLoan;
use crate::rows::{OBJECT_WORDS, RECORD_WORDS};
use crate::{port, By, Tally};
use std::fs;
use std::path::Path;

/// What a list says of a frame.
#[derive(PartialEq, Debug, Clone)]
struct Frame {
    from: u64,
    end: u64,
    format: u64,
    correlation: u64,
    length: u64,
    payload: u64,
    segments: u64,
    sum: u64,
}

/// FNV-1a, as the lists have it.
fn sum(bytes: &[u8]) -> u64 {
    let step = |sum: u64, b: &u8| (sum ^ *b as u64).wrapping_mul(0x100_0000_01B3);
    bytes.iter().fold(0xCBF2_9CE4_8422_2325, step)
}

fn text(path: &Path) -> String {
    fs::read_to_string(path).unwrap_or_else(|e| panic!("{}: {e}", path.display()))
}

/// The lines of a list's part for one file, each cut at its blanks.
fn part<'a>(list: &'a str, file: &str) -> Vec<Vec<&'a str>> {
    let heading = format!("== {file}.bin");
    let lines = list.lines().skip_while(|l| *l != heading).skip(1);
    let own = lines.take_while(|l| !l.starts_with("=="));
    own.filter(|l| l.starts_with(|c: char| c.is_ascii_digit()))
        .map(|l| l.split(' ').collect())
        .collect()
}

fn number(text: &str) -> u64 {
    text.parse()
        .unwrap_or_else(|_| panic!("{text} is no number"))
}

fn hexadecimal(text: &str) -> u64 {
    u64::from_str_radix(text, 16).unwrap_or_else(|_| panic!("{text} is no number"))
}

/// A format byte of a type and three flags, 0 or 1 each.
fn format_of(fields: &[&str]) -> u64 {
    let bit = |i: usize| number(fields[i]);
    bit(0) + 0x40 * bit(1) + 0x20 * bit(2) + 0x10 * bit(3)
}

/// What a line of either of the Rust's lists starts with, and its segments and sum.
fn of_rust(line: &[&str], segments: u64, sum: &str) -> Frame {
    Frame {
        from: number(line[0]),
        end: number(line[1]),
        format: format_of(&line[2..6]),
        correlation: number(line[6]),
        length: number(line[7]),
        payload: number(line[8]),
        segments,
        sum: hexadecimal(sum),
    }
}

/// A line of what the Rust reads; it has no segment count.
fn of_oracle(line: &[&str]) -> Frame {
    of_rust(line, 0, line[11])
}

/// A line of the splitter. A head's length FFFF is 32,767.
fn of_splitter(line: &[&str]) -> Frame {
    let raw = hexadecimal(line[8]);
    let chunks = line[13].split(',').filter(|c| *c != "-").count();
    Frame {
        from: number(line[0]),
        end: number(line[1]),
        format: format_of(&line[3..7]),
        correlation: number(line[7]),
        length: if raw == 0xFFFF { 32_767 } else { raw },
        payload: number(line[9]),
        segments: 1 + chunks as u64,
        sum: hexadecimal(line[12]),
    }
}

/// Whether a line of the splitter has a full last chunk.
fn ends_full(line: &[&str]) -> bool {
    line[13].split(',').next_back() == Some("7FFF")
}

/// A line of what the Rust's rules misread, behind the capture's name and its file.
fn of_misread(line: &[&str]) -> Frame {
    of_rust(line, number(line[9]), line[10])
}

/// The splitter's frames, with those that are misread as one replaced by that one.
fn as_read(split: Vec<Frame>, misread: &[Frame]) -> Vec<Frame> {
    let within = |f: &Frame, m: &Frame| m.from <= f.from && f.from < m.end;
    let mut all = Vec::new();
    for frame in split {
        match misread.iter().find(|m| within(&frame, m)) {
            None => all.push(frame),
            Some(m) if m.from == frame.from => all.push(m.clone()),
            Some(_) => {}
        }
    }
    all
}

/// The objects of a payload as the lists write them: code point and length of the data; or the refusal's number.
fn objects(payload: &[u8]) -> String {
    let mut work = vec![0; payload.len()];
    let mut row = vec![0; OBJECT_WORDS * (payload.len() / 4 + 1)];
    let mut words = [0; ANSWER_WORDS];
    if port::objects(payload, &mut work, &mut row, &mut words) != 0 {
        return format!("refused {}", words[0]);
    }
    let records = row.chunks(OBJECT_WORDS).take(words[2] as usize);
    let each: Vec<String> = records.map(|r| format!("{:04X}:{}", r[2], r[5])).collect();
    each.join(",")
}

/// The Rust's list of objects, or the number of its refusal.
fn listed_objects(text: &str) -> String {
    if text.starts_with("Err(BufferTooShort") {
        return "refused 4".to_string();
    }
    text.to_string()
}

/// A run read frame by frame, up to an answer that isn't 0: the frames, their objects; the position, that answer and its place.
fn read(run: &[u8]) -> (Vec<(Frame, String)>, [u64; 3]) {
    let mut room = vec![0; run.len()];
    let mut words = [0; ANSWER_WORDS];
    let mut frames = Vec::new();
    let mut at = 0;
    loop {
        let answer = port::next_frame(run, at, &mut room, &mut words);
        if answer != 0 {
            return (frames, [at as u64, answer as u64, words[1]]);
        }
        let payload = &room[..words[5] as usize];
        let frame = Frame {
            from: words[7],
            end: words[1],
            format: words[3],
            correlation: words[4],
            length: words[2],
            payload: words[5],
            segments: 0,
            sum: sum(payload),
        };
        frames.push((frame, objects(payload)));
        at = words[1] as usize;
    }
}

/// The frames that the salvage reading hands out, each with where it stood, and the tail's place.
fn salvaged(run: &[u8]) -> (Vec<Frame>, u64) {
    let mut room = vec![0; run.len()];
    let mut row = vec![0; RECORD_WORDS * (run.len() / 6 + 1)];
    let mut words = [0; ANSWER_WORDS];
    let answer = port::salvage(RowLoan {
        run,
        room: &mut room,
        row: &mut row,
        words: &mut words,
    });
    assert!(answer == 0, "room for all, and still refused");
    let frame = |r: &[u64]| Frame {
        from: r[8],
        end: r[9],
        format: r[3],
        correlation: r[4],
        length: r[2],
        payload: r[5],
        segments: r[6],
        sum: sum(&room[r[1] as usize..(r[1] + r[5]) as usize]),
    };
    let records = row.chunks(RECORD_WORDS).take(words[2] as usize);
    (records.map(frame).collect(), words[4])
}

/// A run with each continuation length of a frame spoilt: as many frames as before it, then 16 at that length, and the position
/// is the frame's.
fn spoilt(tally: &mut Tally, what: &str, run: &[u8], frame: &Frame, before: usize) {
    for continuation in 1..frame.segments {
        let place = frame.from + continuation * 32_767;
        for raw in [0, 1] {
            let mut run = run.to_vec();
            run[place as usize..][..2].copy_from_slice(&[0, raw]);
            let (frames, end) = read(&run);
            tally.held(
                By::Document,
                &format!("{what}: spoilt at {place}"),
                &[raw],
                (frames.len(), end),
                (before, [frame.from, 16, place]),
            );
        }
    }
}

/// How many frames with a full last chunk it has: the reader takes what stands behind each for one chunk more.
fn compare_file(
    tally: &mut Tally,
    name: &str,
    file: &str,
    folder: &Path,
    misread: &[Frame],
) -> usize {
    let run = fs::read(folder.join(format!("{file}.bin"))).expect("a capture");
    let what = format!("{name} {file}");
    let oracle = text(&folder.join("oracle.txt"));
    let (frames, end) = read(&run);
    let listed = part(&oracle, file);
    tally.same(
        &format!("{what}: how many frames"),
        &[],
        frames.len(),
        listed.len(),
    );
    for ((frame, objects), line) in frames.iter().zip(&listed) {
        tally.same(&format!("{what}: a frame"), &[], frame, &of_oracle(line));
        let expected = listed_objects(line[12]);
        tally.same(&format!("{what}: its objects"), &[], objects, &expected);
    }
    // Nothing is left: 1.
    let len = run.len() as u64;
    tally.same(&format!("{what}: the end"), &[], end, [len, 1, len]);

    let splitter = text(&folder.join("splitter.txt"));
    let lines = part(&splitter, file);
    let full: Vec<Frame> = lines
        .iter()
        .filter(|line| ends_full(line))
        .map(|line| of_splitter(line))
        .collect();
    for frame in &full {
        let read = frames.iter().find(|(f, _)| f.from == frame.from);
        let swallows = read.is_some_and(|(f, _)| f.end > frame.end);
        let what = format!("{what}: swallows at {}", frame.end);
        tally.held(By::Document, &what, &[], swallows, true);
    }
    let split: Vec<Frame> = lines.iter().map(|line| of_splitter(line)).collect();
    for frame in &split {
        let before = frames.iter().filter(|(f, _)| f.from < frame.from).count();
        spoilt(tally, &what, &run, frame, before);
    }
    let (entries, tail) = salvaged(&run);
    let due = as_read(split, misread);
    tally.same(&format!("{what}: salvaged"), &[], entries, due);
    tally.same(&format!("{what}: the tail"), &[], tail, run.len() as u64);
    full.len()
}

/// Each capture of a folder of captures.
pub fn compare(tally: &mut Tally, folder: &Path) {
    let listed = text(&folder.join("misread.txt"));
    let misread: Vec<Vec<&str>> = listed.lines().map(|l| l.split(' ').collect()).collect();
    let mut names: Vec<String> = fs::read_dir(folder)
        .expect("the captures")
        .map(|entry| entry.expect("a capture").path())
        .filter(|path| path.is_dir())
        .map(|path| path.file_name().unwrap().to_string_lossy().into_owned())
        .collect();
    names.sort();
    assert!(!names.is_empty(), "no capture");
    let mut full = 0;
    for name in &names {
        for file in ["sent", "received"] {
            let own = misread.iter().filter(|m| m[0] == name && m[1] == file);
            let own: Vec<Frame> = own.map(|m| of_misread(&m[2..])).collect();
            full += compare_file(tally, name, file, &folder.join(name), &own);
        }
    }
    assert!(full > 0, "no capture has a full last chunk");
}
