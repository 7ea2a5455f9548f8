//! DRDA's framing: the modules `dss` and `ddm` of db2-proto by their names and shapes, over Lattrugone's archive, whose
//! functions are proved. A caller of db2-proto changes the lines that name where things come from; README says what else:
//!
//! ```
//! // use db2_proto::dss::{DssReader, DssWriter};
//! // use db2_proto::ddm::{DdmBuilder, DdmObject};
//! use lattrugone::ddm::{DdmBuilder, DdmObject};
//! use lattrugone::dss::{DssReader, DssWriter};
//!
//! # fn main() -> lattrugone::Result<()> {
//! let object = DdmBuilder::new(0x200D).add_u16(0x2105, 1208).build();
//! let mut writer = DssWriter::new(1);
//! writer.write_request(&object, false);
//!
//! let mut reader = DssReader::new(writer.finish());
//! let frame = reader.next_frame()?.expect("a whole frame");
//! let (object, consumed) = DdmObject::parse(&frame.payload)?;
//! assert_eq!((object.code_point, consumed), (0x200D, 10));
//! assert_eq!(object.find_param(0x2105).and_then(|p| p.as_u16()), Some(1208));
//! # Ok(())
//! # }
//! ```
//!
//! # What is different
//!
//! - Where the Rust stops or loses length bits, there is an error: [`ProtoError::LengthTooShort`] for a DSS length below 6,
//!   [`ProtoError::LengthTooLarge`] for an extended DDM length above 2^64 - 1. No input makes a call panic, unless there is no
//!   memory for what it needs.
//! - [`ProtoError`] has the cases that these two modules give, and those of what is added.
//! - Left out: the string forms `as_utf8`, `as_ebcdic`, `add_string`, `add_ebcdic_string`, and the module `codepage`.
//!   `String::from_utf8(param.data)` and `add_code_point(cp, s.as_bytes())` stand in for two of them.
//!
//! # What is added
//!
//! - [`dss::salvage`] hands out all that can be read of a damaged run.
//! - [`dss::DssReader::dead_at`] says whether a frame that isn't whole can still become so, or where it can't.
//! - [`dss::DssReader::measure`] and [`dss::DssReader::take_into`]: how much room a frame's payload takes, before any is lent, and the
//!   payload in room of the caller's own; by the reader's rules or by salvage's.
//! - [`dss::DssReader::position`], and [`dss::DssReader::next_frame_counted`], which says of how many segments a frame is.
//! - [`dss::change_request`] changes one parameter of a request already built, [`ddm::DdmObject::with_param`] one of an object.
//! - [`port`]: the archive's functions as they are, for a caller that lends its own room and wants nothing allocated.
//!
//! # What is proved
//!
//! The archive's functions: what each answers, what it leaves in lent room, that it ends and touches nothing else. They allocate
//! nothing: this crate asks them how much room a result needs, allocates that, lends it, and turns their words into these types
//! and texts. That Rust isn't proved; it is tested, and `compare/run` holds it to db2-proto name by name.
#![deny(unsafe_code)]
#![warn(missing_docs)]

#[cfg(not(all(
    target_arch = "x86_64",
    target_pointer_width = "64",
    target_os = "linux"
)))]
compile_error!("the archive is for x86-64 Linux");

#[cfg(doctest)]
mod callers;
pub mod ddm;
pub mod dss;
mod error;
mod loan;
#[allow(unsafe_code, clippy::too_many_arguments)]
pub mod port;

pub use error::{ProtoError, Result};
