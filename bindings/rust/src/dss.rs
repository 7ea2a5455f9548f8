//! DSS: heads, the writer, the reader, measuring and taking, the salvage reading, a request changed. By db2-proto's names.
mod change;
mod head;
mod measure;
mod reader;
mod salvage;
mod writer;

pub use change::change_request;
pub use head::{DssFlags, DssHeader, DssType};
pub use measure::{FrameMeasure, Rules};
pub use reader::{DssFrame, DssReader};
pub use salvage::{salvage, Entry, Salvage};
pub use writer::{build_dss_object, build_dss_request, DssWriter};

/// The third byte of each head.
pub const DSS_MAGIC: u8 = 0xD0;
/// How many bytes a head is.
pub const DSS_HEADER_LEN: usize = 6;
/// How many bytes a segment is at most.
pub const DSS_MAX_SEGMENT_LEN: usize = 32767;
