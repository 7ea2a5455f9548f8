//! Measure, then take: added. The calls are [`DssReader::measure`](super::DssReader::measure) and
//! [`DssReader::take_into`](super::DssReader::take_into).
use super::DssHeader;
use crate::port::Words;
use crate::Result;
use std::ops::Range;

/// Which rules a frame is measured and taken by.
#[derive(Debug, Clone, Copy, PartialEq, Eq)]
pub enum Rules {
    /// db2-proto's, and those of [`DssReader::next_frame`](super::DssReader::next_frame).
    Reader,
    /// Those of [`salvage`](super::salvage): a head that is refused behind the frame closes it, so that no frame is lost to the one
    /// behind it; and a continuation of length 7FFF is the frame's last, as DRDA has it.
    Salvage,
}

impl Rules {
    /// Its number in the archive's functions.
    pub(super) fn number(self) -> u8 {
        match self {
            Rules::Reader => 0,
            Rules::Salvage => 1,
        }
    }
}

/// A frame before its payload is taken.
#[derive(Debug, Clone)]
pub struct FrameMeasure {
    /// The first head; chained as the last absorbed segment says.
    pub header: DssHeader,
    /// How many bytes its payload has, and so how much room it takes.
    pub payload_len: usize,
    /// Of how many segments it is.
    pub segments: usize,
    /// Where it stands in the reader's bytes: from its first byte up to the byte after its last, which is the position after it.
    pub span: Range<usize>,
}

impl FrameMeasure {
    pub(super) fn of_words(words: &Words) -> Result<Self> {
        let [_, behind, .., payload_len, segments, first] = words.map(|word| word as usize);
        Ok(Self {
            header: DssHeader::of_frame(words)?,
            payload_len,
            segments,
            span: first..behind,
        })
    }
}
