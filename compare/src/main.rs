//! Holds the port to the running Rust, and what the Rust doesn't have to document 01: the same input to both, and the answers,
//! the words and every byte of each lent buffer compared; and the crate `lattrugone` to db2-proto, name by name (names.rs).
//! `compare [CASES] [SEED]`: how many random inputs each part tries besides those that it tries one and all, and which ones.
//! `compare --record FILE FILE` records the Rust's answers (record.rs).
mod answers;
mod change;
mod ddm;
mod dead;
mod five;
mod head;
mod lengths;
mod lent;
mod measure;
mod names;
mod port;
mod reader;
mod record;
mod rows;
mod salvage;
mod stops;
mod traffic;
mod writer;

use answers::Answer;
// The names that the Rust's ddm.rs takes from its crate's root: its text is also a module here (ddm/rust.rs).
use db2_proto::{codepage, ProtoError, Result};
use std::fmt::Debug;
use std::path::Path;

/// The captures, unpacked.
const CAPTURES: &str = concat!(env!("CARGO_MANIFEST_DIR"), "/../target/compare/captures");

/// What an answer of the port is held to.
#[derive(Clone, Copy)]
pub enum By {
    /// The running Rust, or the lists beside the captures.
    Rust,
    /// The model of the salvage reading, which the Rust doesn't have.
    Model,
    /// The model of changing one parameter, which the Rust doesn't have either.
    Change,
    /// Documents 01 and 02 alone, as this program reads them.
    Document,
    /// The documents, where the Rust answers `InvalidDssType(5)` (five.rs).
    Five,
}

/// How many answers of the port were held to what, and how many differences were found.
#[derive(Default)]
pub struct Tally {
    rust: u64,
    model: u64,
    change: u64,
    document: u64,
    five: u64,
    different: u64,
    /// What was met of continuation lengths of 0 and 1.
    pub dead: dead::Met,
}

/// The run stops at so many differences.
const ENOUGH: u64 = 10;

impl Tally {
    /// Holds what the port answered to what the Rust did.
    pub fn same<A: PartialEq + Debug>(&mut self, what: &str, input: &[u8], port: A, rust: A) {
        self.held(By::Rust, what, input, port, rust);
    }

    /// The same of an answer in words. The Rust has no 7 to 10 and no 16: those are document 01's and 02's.
    pub fn answer(&mut self, what: &str, input: &[u8], port: Answer, due: Answer) {
        self.answer_by(By::Rust, what, input, port, due);
    }

    /// The same, where another than the Rust says what is due.
    pub fn answer_by(&mut self, by: By, what: &str, input: &[u8], port: Answer, due: Answer) {
        let by = if due.only_in_document() {
            By::Document
        } else {
            by
        };
        self.held(by, what, input, port, due);
    }

    /// Holds what the port answered to what is due.
    pub fn held<A: PartialEq + Debug>(
        &mut self,
        by: By,
        what: &str,
        input: &[u8],
        port: A,
        due: A,
    ) {
        *match by {
            By::Rust => &mut self.rust,
            By::Model => &mut self.model,
            By::Change => &mut self.change,
            By::Document => &mut self.document,
            By::Five => &mut self.five,
        } += 1;
        self.equal(what, input, ("port", port), ("due", due));
    }

    /// Holds what this program itself takes for the Rust's to what the running Rust does: no answer of the port is held to
    /// anything, so nothing is counted.
    pub fn own<A: PartialEq + Debug>(&mut self, what: &str, input: &[u8], here: A, rust: A) {
        self.equal(what, input, ("here", here), ("rust", rust));
    }

    fn equal<A: PartialEq + Debug>(
        &mut self,
        what: &str,
        input: &[u8],
        one: (&str, A),
        other: (&str, A),
    ) {
        if one.1 == other.1 {
            return;
        }
        self.different += 1;
        println!("different: {what} of {}", hex(input));
        for (whose, answer) in [one, other] {
            println!("  {whose} {answer:?}");
        }
        if self.different == ENOUGH {
            self.end();
        }
    }

    /// The last lines, and the exit.
    fn end(&self) -> ! {
        let (rust, model) = (self.rust, self.model);
        println!(
            "compare: {rust} held to the running Rust, {model} to the salvage reading's model"
        );
        println!(
            "compare: besides, {} held to documents 01 and 02 alone: 7 to 10, 16, what is beyond a run, memory or 2^64 - 1, demand 3",
            self.document
        );
        println!(
            "compare: besides, {} held to the model of changing one parameter",
            self.change
        );
        println!(
            "compare: besides, {} held to document 02, W-210, where the Rust answers InvalidDssType(5) or has no such call",
            self.five
        );
        println!("{} compared, {} different", rust + model, self.different);
        std::process::exit(if self.different == 0 { 0 } else { 1 });
    }
}

pub fn hex(bytes: &[u8]) -> String {
    if bytes.is_empty() {
        return "no bytes".to_string();
    }
    bytes.iter().map(|b| format!("{b:02X}")).collect()
}

/// The first bytes of a run, for the line of a difference.
pub fn shown(run: &[u8]) -> &[u8] {
    &run[..run.len().min(96)]
}

/// Random numbers that a seed decides (xorshift, multiplied).
pub struct Chance(u64);

impl Chance {
    pub fn next(&mut self) -> u64 {
        self.0 ^= self.0 >> 12;
        self.0 ^= self.0 << 25;
        self.0 ^= self.0 >> 27;
        self.0.wrapping_mul(0x2545_F491_4F6C_DD1D)
    }

    /// A number below n.
    pub fn below(&mut self, n: usize) -> usize {
        ((self.next() >> 32) as usize) % n
    }

    pub fn byte(&mut self) -> u8 {
        (self.next() >> 56) as u8
    }

    /// So many bytes.
    pub fn bytes(&mut self, len: usize) -> Vec<u8> {
        let mut bytes = Vec::with_capacity(len + 8);
        while bytes.len() < len {
            bytes.extend(self.next().to_be_bytes());
        }
        bytes.truncate(len);
        bytes
    }
}

/// The argument at a place, as a number.
fn argument(place: usize, otherwise: u64) -> u64 {
    match std::env::args().nth(place) {
        None => otherwise,
        Some(text) => match text.parse() {
            Ok(number) => number,
            Err(_) => {
                eprintln!("compare: {text} is no number");
                std::process::exit(2);
            }
        },
    }
}

/// `compare --record FILE FILE`.
fn record_lists() -> ! {
    let paths: Vec<String> = std::env::args().skip(2).collect();
    let Ok(paths) = paths.try_into() else {
        eprintln!("compare: --record wants two files");
        std::process::exit(2);
    };
    record::record(&mut Tally::default(), &paths);
    std::process::exit(0);
}

fn main() {
    stops::silence();
    if std::env::args().nth(1).as_deref() == Some("--record") {
        record_lists();
    }
    let cases = argument(1, 1_000_000);
    let seed = argument(2, 1);
    println!("compare: {cases} random inputs a part, seed {seed}");
    let mut chance = Chance(seed.wrapping_mul(0x9E37_79B9_7F4A_7C15) | 1);
    let mut tally = Tally::default();
    lengths::compare(&mut tally);
    head::compare(&mut tally, &mut chance, cases);
    writer::compare(&mut tally, &mut chance, cases);
    reader::compare(&mut tally, &mut chance, cases);
    salvage::compare(&mut tally, &mut chance, cases);
    ddm::compare(&mut tally, &mut chance, cases);
    names::compare(&mut tally, &mut chance, cases);
    change::compare(&mut tally, &mut chance, cases);
    traffic::compare(&mut tally, Path::new(CAPTURES));
    tally.dead.all();
    assert!(tally.five > 0, "no type 5 was met");
    tally.end();
}
