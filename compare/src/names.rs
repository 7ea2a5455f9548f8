//! `lattrugone::dss` and `lattrugone::ddm` held to db2-proto's two modules name by name: the code in names/side is compiled twice,
//! over db2-proto and over lattrugone, so that a name that is missing or has another type doesn't compile; and what both come to
//! is compared. At the end every public name of the two modules' text has been compared, but for the string forms.
//!
//! Where the Rust stops or loses bits, the port is held to document 01, and where it refuses a type 5, to document 02.
mod added;
mod builder;
mod captures;
mod five;
mod handed;
mod heads;
mod measured;
mod objects;
mod reader;
mod seen;
mod source;
mod writer;

use crate::five::NO_REPLY;
use crate::{By, Chance, Tally, CAPTURES};
use seen::{Case, Seen, Why};
use std::collections::HashMap;
use std::fmt::Debug;
use std::path::Path;

/// The code in names/side over a crate.
macro_rules! side {
    ($(#[$doc:meta])* $name:ident = $proto:ident) => {
        $(#[$doc])*
        mod $name {
            use $proto as proto;
            mod types {
                use super::proto;
                include!("names/side/types.rs");
            }
            mod values {
                use super::proto;
                include!("names/side/values.rs");
            }
            pub mod heads {
                use super::{proto, values};
                include!("names/side/heads.rs");
            }
            pub mod writer {
                use super::proto;
                include!("names/side/writer.rs");
            }
            pub mod reader {
                use super::{proto, values};
                include!("names/side/reader.rs");
            }
            pub mod objects {
                use super::{proto, values};
                include!("names/side/objects.rs");
            }
            pub mod builder {
                use super::proto;
                include!("names/side/builder.rs");
            }
        }
    };
}

side!(rust = db2_proto);
side!(port = lattrugone);

/// So many random inputs are tried at least: among so many each name occurs.
const FEWEST: u64 = 400;

pub fn compare(tally: &mut Tally, chance: &mut Chance, cases: u64) {
    let mut names = Names {
        tally,
        times: HashMap::new(),
    };
    let cases = cases.max(FEWEST);
    heads::compare(&mut names, chance, cases);
    writer::compare(&mut names, chance, cases);
    reader::compare(&mut names, chance, cases);
    objects::compare(&mut names, chance, cases);
    builder::compare(&mut names, chance, cases);
    captures::compare(&mut names, Path::new(CAPTURES));
    handed::compare(&mut names, chance, cases);
    added::compare(&mut names, chance, cases);
    source::all_compared(&names.times);
}

/// The tally, and how often each public name was compared.
struct Names<'a> {
    tally: &'a mut Tally,
    times: HashMap<&'static str, u64>,
}

impl Names<'_> {
    /// Holds what the port's names came to, to what the Rust's came to.
    fn same<A: PartialEq + Debug>(
        &mut self,
        names: &[&'static str],
        input: &[u8],
        port: A,
        rust: A,
    ) {
        for name in names {
            *self.times.entry(name).or_default() += 1;
        }
        self.tally.same(names[0], input, port, rust);
    }

    /// The same where there can be an error: its case is one of the names.
    fn result<A>(&mut self, names: &[&'static str], input: &[u8], port: Seen<A>, rust: Seen<A>)
    where
        A: PartialEq + Debug,
    {
        if let Err(why) = &rust {
            *self.times.entry(case_name(why)).or_default() += 1;
        }
        self.same(names, input, port, rust);
    }

    /// The same where the Rust may refuse a type 5, and what is due then.
    fn or_five<A>(
        &mut self,
        names: &[&'static str],
        input: &[u8],
        port: Seen<A>,
        rust: Seen<A>,
        due: impl FnOnce() -> Seen<A>,
    ) where
        A: PartialEq + Debug,
    {
        match is_five(&rust) {
            true => self.tally.held(By::Five, names[0], input, port, due()),
            false => self.result(names, input, port, rust),
        }
    }

    /// Holds what the port came to, to document 01 where the Rust stops or loses bits.
    fn document<A: PartialEq + Debug>(
        &mut self,
        name: &'static str,
        input: &[u8],
        port: A,
        due: A,
    ) {
        self.tally.held(By::Document, name, input, port, due);
    }
}

/// Whether the Rust refuses a type 5.
fn is_five<A>(given: &Seen<A>) -> bool {
    matches!(given, Err(why) if why.case == Case::Type(NO_REPLY))
}

fn case_name(why: &Why) -> &'static str {
    match why.case {
        Case::Magic(_) => "ProtoError::InvalidMagic",
        Case::TooShort(..) => "ProtoError::BufferTooShort",
        Case::Type(_) => "ProtoError::InvalidDssType",
        Case::Other(_) => "ProtoError::Other",
        Case::Unshared => panic!("the Rust's modules give no such error: {why:?}"),
    }
}
