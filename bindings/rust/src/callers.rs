//! Callers of a db2-proto that hands `dss` and `ddm` on, as README says: those that don't compile unchanged, each beside what
//! does. In each, `db2_proto` stands for that crate, with its own error.
//!
//! A result given on as it is:
//!
//! ```compile_fail,E0308
//! # mod db2_proto {
//! #     pub use lattrugone::{ddm, dss};
//! #     #[derive(Debug, PartialEq)] pub enum ProtoError { InvalidMagic(u8), Other(String) }
//! #     impl From<lattrugone::ProtoError> for ProtoError {
//! #         fn from(error: lattrugone::ProtoError) -> Self { ProtoError::Other(error.to_string()) }
//! #     }
//! #     pub type Result<T> = std::result::Result<T, ProtoError>;
//! # }
//! use db2_proto::dss::DssHeader;
//!
//! fn head(data: &[u8]) -> db2_proto::Result<DssHeader> {
//!     DssHeader::parse(data)
//! }
//! ```
//!
//! ```
//! # mod db2_proto {
//! #     pub use lattrugone::{ddm, dss};
//! #     #[derive(Debug, PartialEq)] pub enum ProtoError { InvalidMagic(u8), Other(String) }
//! #     impl From<lattrugone::ProtoError> for ProtoError {
//! #         fn from(error: lattrugone::ProtoError) -> Self { ProtoError::Other(error.to_string()) }
//! #     }
//! #     pub type Result<T> = std::result::Result<T, ProtoError>;
//! # }
//! use db2_proto::dss::DssHeader;
//!
//! fn head(data: &[u8]) -> db2_proto::Result<DssHeader> {
//!     Ok(DssHeader::parse(data)?)
//! }
//! ```
//!
//! A match with db2-proto's cases:
//!
//! ```compile_fail,E0308
//! # mod db2_proto {
//! #     pub use lattrugone::{ddm, dss};
//! #     #[derive(Debug, PartialEq)] pub enum ProtoError { InvalidMagic(u8), Other(String) }
//! #     impl From<lattrugone::ProtoError> for ProtoError {
//! #         fn from(error: lattrugone::ProtoError) -> Self { ProtoError::Other(error.to_string()) }
//! #     }
//! # }
//! use db2_proto::{dss::DssHeader, ProtoError};
//!
//! fn is_bad(data: &[u8]) -> bool {
//!     matches!(DssHeader::parse(data), Err(ProtoError::InvalidMagic(_)))
//! }
//! ```
//!
//! ```
//! # mod db2_proto {
//! #     pub use lattrugone::{ddm, dss};
//! #     #[derive(Debug, PartialEq)] pub enum ProtoError { InvalidMagic(u8), Other(String) }
//! #     impl From<lattrugone::ProtoError> for ProtoError {
//! #         fn from(error: lattrugone::ProtoError) -> Self { ProtoError::Other(error.to_string()) }
//! #     }
//! # }
//! use db2_proto::{dss::DssHeader, ProtoError};
//!
//! fn is_bad(data: &[u8]) -> bool {
//!     matches!(DssHeader::parse(data).map_err(ProtoError::from), Err(ProtoError::InvalidMagic(_)))
//! }
//! ```
//!
//! A match on the error itself that has a case of the others of db2-proto, and one that has only the four:
//!
//! ```compile_fail,E0599
//! fn is_code_point(error: &lattrugone::ProtoError) -> bool {
//!     matches!(error, lattrugone::ProtoError::InvalidCodePoint(_))
//! }
//! ```
//!
//! ```compile_fail,E0004
//! use lattrugone::ProtoError::*;
//!
//! fn number(error: &lattrugone::ProtoError) -> u8 {
//!     match error {
//!         InvalidMagic(_) => 2,
//!         InvalidDssType(_) => 3,
//!         BufferTooShort { .. } => 4,
//!         Other(_) => 5,
//!     }
//! }
//! ```
//!
//! ```
//! use lattrugone::ProtoError::*;
//!
//! fn number(error: &lattrugone::ProtoError) -> u8 {
//!     match error {
//!         InvalidMagic(_) => 2,
//!         InvalidDssType(_) => 3,
//!         BufferTooShort { .. } => 4,
//!         Other(_) => 5,
//!         LengthTooShort(_) => 7,
//!         LengthTooLarge(_) => 8,
//!         NoRoom { .. } => 9,
//!         Incomplete => 1,
//!         NotFound => 11,
//!         DeadContinuation { .. } => 16,
//!         UnsoundData { .. } => 17,
//!         UnreadableSize => 18,
//!     }
//! }
//! ```
//!
//! A match on all of db2-proto's types, and what it must add:
//!
//! ```compile_fail,E0004
//! use lattrugone::dss::DssType;
//!
//! fn answers(dss_type: DssType) -> bool {
//!     match dss_type {
//!         DssType::Request => true,
//!         DssType::Reply | DssType::Object | DssType::Communication => false,
//!     }
//! }
//! ```
//!
//! ```
//! use lattrugone::dss::DssType;
//!
//! fn answers(dss_type: DssType) -> bool {
//!     match dss_type {
//!         DssType::Request => true,
//!         DssType::Reply | DssType::Object | DssType::Communication => false,
//!         DssType::NoReply => false,
//!     }
//! }
//! ```
//!
//! A frame taken apart, which has a field that isn't public:
//!
//! ```compile_fail
//! use lattrugone::dss::{DssFrame, DssHeader};
//!
//! fn parts(frame: DssFrame) -> (DssHeader, Vec<u8>) {
//!     let DssFrame { header, payload } = frame;
//!     (header, payload)
//! }
//! ```
//!
//! ```
//! use lattrugone::dss::{DssFrame, DssHeader};
//!
//! fn parts(frame: DssFrame) -> (DssHeader, Vec<u8>) {
//!     let DssFrame { header, payload, .. } = frame;
//!     (header, payload)
//! }
//! ```
//!
//! An error type of the caller's own, made from db2-proto's:
//!
//! ```compile_fail,E0277
//! # mod db2_proto {
//! #     pub use lattrugone::{ddm, dss};
//! #     #[derive(Debug, PartialEq)] pub enum ProtoError { InvalidMagic(u8), Other(String) }
//! #     impl From<lattrugone::ProtoError> for ProtoError {
//! #         fn from(error: lattrugone::ProtoError) -> Self { ProtoError::Other(error.to_string()) }
//! #     }
//! # }
//! struct Mine(db2_proto::ProtoError);
//!
//! impl From<db2_proto::ProtoError> for Mine {
//!     fn from(error: db2_proto::ProtoError) -> Self {
//!         Mine(error)
//!     }
//! }
//!
//! fn length(data: &[u8]) -> Result<u16, Mine> {
//!     Ok(db2_proto::dss::DssHeader::parse(data)?.length)
//! }
//! ```
//!
//! ```
//! # mod db2_proto {
//! #     pub use lattrugone::{ddm, dss};
//! #     #[derive(Debug, PartialEq)] pub enum ProtoError { InvalidMagic(u8), Other(String) }
//! #     impl From<lattrugone::ProtoError> for ProtoError {
//! #         fn from(error: lattrugone::ProtoError) -> Self { ProtoError::Other(error.to_string()) }
//! #     }
//! # }
//! # struct Mine(db2_proto::ProtoError);
//! #
//! impl From<lattrugone::ProtoError> for Mine {
//!     fn from(error: lattrugone::ProtoError) -> Self {
//!         Mine(error.into())
//!     }
//! }
//!
//! fn length(data: &[u8]) -> Result<u16, Mine> {
//!     Ok(db2_proto::dss::DssHeader::parse(data)?.length)
//! }
//! ```
//!
//! An error in a box, which compiles, and isn't found by db2-proto's type:
//!
//! ```
//! # mod db2_proto {
//! #     pub use lattrugone::{ddm, dss};
//! #     #[derive(Debug, PartialEq)] pub enum ProtoError { InvalidMagic(u8), Other(String) }
//! #     impl std::fmt::Display for ProtoError {
//! #         fn fmt(&self, f: &mut std::fmt::Formatter<'_>) -> std::fmt::Result { write!(f, "{self:?}") }
//! #     }
//! #     impl std::error::Error for ProtoError {}
//! # }
//! use std::error::Error;
//!
//! fn length(data: &[u8]) -> Result<u16, Box<dyn Error>> {
//!     Ok(db2_proto::dss::DssHeader::parse(data)?.length)
//! }
//!
//! let error = length(b"").unwrap_err();
//! assert!(!error.is::<db2_proto::ProtoError>());
//! assert!(error.is::<lattrugone::ProtoError>());
//! ```
//!
//! The string forms:
//!
//! ```compile_fail,E0599
//! fn name(param: &lattrugone::ddm::DdmParam) -> Option<String> {
//!     param.as_utf8()
//! }
//! ```
//!
//! ```
//! fn name(param: &lattrugone::ddm::DdmParam) -> Option<String> {
//!     String::from_utf8(param.data.clone()).ok()
//! }
//! ```
//!
//! ```compile_fail,E0599
//! lattrugone::ddm::DdmBuilder::new(0x200D).add_string(0x2110, "LATTRUGONE");
//! ```
//!
//! ```
//! lattrugone::ddm::DdmBuilder::new(0x200D).add_code_point(0x2110, "LATTRUGONE".as_bytes());
//! ```
