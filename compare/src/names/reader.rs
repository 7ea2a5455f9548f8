//! The reader: runs read frame by frame, all at once, and as they arrive.
use super::seen::{Case, Frame, Seen, Why};
use super::{five, is_five, port, rust, Names};
use crate::reader::long::{each_continued, each_dead, written, AROUND, EDGES};
use crate::reader::short::{every_frame, framed};
use crate::reader::{runs, PAPER};
use crate::stops::unless_stopped;
use crate::{shown, Chance};

const LOOK: &[&str] = &["DssReader::remaining", "DssReader::has_complete_frame"];
const NEXT: &[&str] = &[
    "DssReader::next_frame",
    "DssReader::new",
    "DssFrame::header",
    "DssFrame::payload",
];
const ALL: &[&str] = &["DssReader::read_all_frames"];
const REST: &[&str] = &["DssReader::into_remaining"];

/// A run up to this length is compared by all that the reader holds.
const SHORT: usize = 48;

/// Once in so many random runs there are long frames.
const LONG: usize = 200;

pub fn compare(names: &mut Names, chance: &mut Chance, cases: u64) {
    for first in PAPER {
        for second in PAPER {
            let run = [first, second].concat();
            for cut in 0..=run.len() {
                hold(names, &run[..cut]);
                arriving(names, &run, &[cut]);
            }
        }
    }
    for (turn, second) in every_frame(1).enumerate() {
        let first = framed(1 + turn as u8 % 5, 1, &[0x80, 0x04, 0x24, 0x1B][..turn % 5]);
        hold(names, &second);
        hold(names, &[&first[..], &second].concat());
        let cut = turn % (first.len() + second.len());
        hold(names, &[&first[..], &second].concat()[..cut]);
    }
    long(names, chance);
    for _ in 0..cases {
        random(names, chance);
    }
}

/// Frames around each edge as the Rust writes them, continuations of each kind, and those of length 0 and 1, the last byte also
/// arriving by itself: `None`, and the reader stays where it was.
fn long(names: &mut Names, chance: &mut Chance) {
    for len in EDGES
        .into_iter()
        .flat_map(|edge| edge - AROUND..=edge + AROUND)
    {
        let run = written(1 + len as u8 % 5, len % 2 == 0, &chance.bytes(len));
        hold(names, &run);
        let run = [&run[..], &framed(0x13, 9, &[0x7F, 0xFE, 0xC1])].concat();
        hold(names, &run);
        arriving(names, &run, &[len / 3, len / 2]);
    }
    let behind = framed(0x13, 7, &[0xC1, 0xC2]);
    each_continued(chance, &behind, |run| hold(names, run));
    each_dead(chance, |run, _| {
        hold(names, run);
        arriving(names, run, &[run.len() - 1]);
    });
}

/// A random run, damaged once of two times and cut once of three; at times as it arrives in a few parts.
fn random(names: &mut Names, chance: &mut Chance) {
    let mut run = runs::random(chance, LONG);
    if chance.below(2) == 0 {
        run.damage(chance);
    }
    if chance.below(3) == 0 {
        let end = run.place(chance, 24).min(run.bytes.len());
        run.bytes.truncate(end);
    }
    hold(names, &run.bytes);
    if chance.below(4) == 0 {
        let cuts: Vec<usize> = (0..chance.below(4))
            .map(|_| chance.below(run.bytes.len() + 1))
            .collect();
        arriving(names, &run.bytes, &cuts);
    }
}

/// Both readers of a run, and the run so far. Behind a type 5 the Rust's is a new one, of the bytes that aren't read yet.
struct Both<'a> {
    port: port::reader::Reader,
    rust: rust::reader::Reader,
    run: &'a [u8],
    anew: bool,
}

impl<'a> Both<'a> {
    fn new(run: &'a [u8]) -> Both<'a> {
        Both {
            port: port::reader::Reader::new(run),
            rust: rust::reader::Reader::new(run),
            run,
            anew: false,
        }
    }

    /// What remains, so the position; whether a frame is whole; of a short run all that the readers hold.
    fn look(&self, names: &mut Names) {
        let (a, b) = (&self.port, &self.rust);
        let port = (a.remaining(), a.is_whole());
        names.same(LOOK, shown(self.run), port, (b.remaining(), b.is_whole()));
        if self.run.len() <= SHORT && !self.anew {
            names.same(&["DssReader"], self.run, a.shown(), b.shown());
        }
    }

    /// Where the Rust's reader stands.
    fn at(&self) -> usize {
        self.run.len() - self.rust.remaining()
    }

    /// What document 01 says where the Rust stopped: it stands at a length below 6.
    fn too_short<A>(&self) -> Seen<A> {
        let at = self.at();
        let length = self.run[at] as usize * 256 + self.run[at + 1] as usize;
        assert!(length < 6, "the Rust stops at another place");
        Err(Why {
            case: Case::Unshared,
            text: format!("DSS length {length} is less than header size 6"),
            debug: format!("LengthTooShort({length})"),
        })
    }

    /// The Rust's reader goes on at a place, behind or at what the model read or refused.
    fn goes_on_at(&mut self, place: usize) {
        self.rust = rust::reader::Reader::new(&self.run[place..]);
        self.anew = true;
    }

    /// The next frame; whether there was one.
    fn next(&mut self, names: &mut Names) -> bool {
        let at = self.at();
        names.tally.dead.note(NEXT[0], self.run, at);
        let (port, reader) = (self.port.next(), &mut self.rust);
        let rust: Option<Seen<Option<Frame>>> = unless_stopped(|| reader.next());
        let mut goes_on = matches!(rust, Some(Ok(Some(_))));
        match rust {
            Some(rust) if is_five(&rust) => {
                let (due, place) = five::next(self.run, at);
                goes_on = due.is_ok();
                names.or_five(NEXT, shown(self.run), port, rust, || due);
                self.goes_on_at(place);
            }
            Some(rust) => names.result(NEXT, shown(self.run), port, rust),
            None => names.document(NEXT[0], shown(self.run), port, self.too_short()),
        }
        self.look(names);
        goes_on
    }

    fn all(&mut self, names: &mut Names) {
        let at = self.at();
        let (port, reader) = (self.port.all(), &mut self.rust);
        let rust: Option<Seen<Vec<Frame>>> = unless_stopped(|| reader.all());
        if let Some(Ok(_)) = rust {
            names.tally.dead.note(ALL[0], self.run, self.at());
        }
        match rust {
            Some(rust) if is_five(&rust) => {
                let (due, place) = five::all(self.run, at);
                names.or_five(ALL, shown(self.run), port, rust, || due);
                self.goes_on_at(place);
            }
            Some(rust) => names.result(ALL, shown(self.run), port, rust),
            None => names.document(ALL[0], shown(self.run), port, self.too_short()),
        }
        self.look(names);
    }

    fn rest(self, names: &mut Names) {
        let rest = (self.port.into_rest(), self.rust.into_rest());
        names.same(REST, shown(self.run), rest.0, rest.1);
    }
}

/// A run frame by frame until none is given, and once more; then all at once, and once more.
pub fn hold(names: &mut Names, run: &[u8]) {
    let end = (port::reader::first_end(run), rust::reader::first_end(run));
    names.same(
        &["DssReader::first_complete_frame_len"],
        shown(run),
        end.0,
        end.1,
    );
    let mut both = Both::new(run);
    both.look(names);
    if both.next(names) && run.len() <= SHORT {
        if let Some(rust) = rust::reader::first_shown(run) {
            let port = port::reader::first_shown(run);
            names.same(&["DssFrame"], run, port, Some(rust));
        }
    }
    while both.next(names) {}
    both.next(names);
    both.rest(names);
    let mut both = Both::new(run);
    both.all(names);
    both.all(names);
    both.rest(names);
}

/// A run that arrives in parts that end at these places, each read as far as it goes.
pub fn arriving(names: &mut Names, run: &[u8], ends: &[usize]) {
    let mut ends = ends.to_vec();
    ends.sort();
    ends.push(run.len());
    let mut both = Both::new(&run[..ends[0]]);
    for (i, end) in ends.iter().enumerate() {
        let so_far = both.run.len();
        if so_far < *end {
            both.port.extend(&run[so_far..*end]);
            both.rust.extend(&run[so_far..*end]);
            both.run = &run[..*end];
            let remaining = (both.port.remaining(), both.rust.remaining());
            names.same(&["DssReader::extend"], shown(run), remaining.0, remaining.1);
        }
        if i % 2 == 0 {
            both.all(names);
        } else {
            both.next(names);
        }
    }
    both.rest(names);
}
