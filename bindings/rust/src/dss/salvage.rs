//! The salvage reading: added.
use super::DssFrame;
use crate::error::Refusal;
use crate::loan::Loan;
use crate::port::{self, Record, RECORD_WORDS};
use crate::{ProtoError, Result};
use std::ops::Range;

/// All that can be read of a run.
#[derive(Debug, Clone)]
pub struct Salvage {
    /// Frames and refusals in the order in which they stand.
    pub entries: Vec<Entry>,
    /// Where it ended: from there on nothing was read.
    pub tail: usize,
}

/// What stands at a place of a run.
#[derive(Debug, Clone)]
pub enum Entry {
    /// A frame that was read.
    Frame {
        /// The frame.
        frame: DssFrame,
        /// Of how many segments it is.
        segments: usize,
    },
    /// A whole frame whose head is refused.
    Refused {
        /// Its first byte.
        place: usize,
        /// The byte after its last; its first one where the reading ended there, its length being below 6.
        end: usize,
        /// Why: its magic, its type, or its length.
        error: ProtoError,
    },
}

/// Reads all that can be read of a run: a frame whose head is refused becomes an entry and is stepped over to its end; where
/// its length is below 6 the reading ends there.
///
/// A continuation of length 7FFF is a frame's last here, as DRDA has it. For `DssReader`, as for db2-proto's, it is one that another
/// must follow: a payload of 65,526 bytes (or of that and a multiple of 32,765 more) is `None` alone, and swallows the frame behind
/// it. Salvage hands out both.
///
/// ```
/// use lattrugone::dss::{build_dss_object, salvage, Entry};
///
/// let mut run = build_dss_object(1, false, b"station 0412");
/// let spoilt = run.len();
/// run.extend(build_dss_object(2, false, b"station 0413"));
/// run.extend(build_dss_object(3, false, b"station 0414"));
/// run[spoilt + 2] = 0xD1;
///
/// let found = salvage(&run);
/// let line = |entry: &Entry| match entry {
///     Entry::Frame { frame, .. } => String::from_utf8_lossy(&frame.payload).into_owned(),
///     Entry::Refused { place, error, .. } => format!("{error} at {place}"),
/// };
/// let lines: Vec<_> = found.entries.iter().map(line).collect();
/// assert_eq!(lines, ["station 0412", "invalid DSS magic byte: 0xD1 at 18", "station 0414"]);
/// assert_eq!(found.tail, run.len());
/// ```
pub fn salvage(run: &[u8]) -> Salvage {
    let read = Loan::<RECORD_WORDS>::of(|loan| {
        let (room, row, words) = (&mut loan.room, &mut loan.row, &mut loan.words);
        port::salvage(run, room, row, words)
    });
    let loan = read.expect("the room that it takes is lent");
    let entry = |record| Entry::of(record, &loan.room).expect("a frame's record has a type");
    Salvage {
        entries: loan.records().map(entry).collect(),
        tail: loan.words[4] as usize,
    }
}

impl Entry {
    /// Where it stood in the run: from its first byte up to the byte after its last. The stretches of a salvage follow each other
    /// without gap or overlap, from 0 to its tail.
    ///
    /// ```
    /// use lattrugone::dss::{build_dss_object, salvage};
    ///
    /// let mut run = build_dss_object(1, false, b"station 0412");
    /// run.extend(build_dss_object(2, false, b"station 0413"));
    /// run[2] = 0xD1;
    /// run.extend([0, 6]);
    /// let found = salvage(&run);
    /// let spans: Vec<_> = found.entries.iter().map(|entry| entry.span()).collect();
    /// assert_eq!((spans, found.tail), (vec![0..18, 18..36], 36));
    /// ```
    pub fn span(&self) -> Range<usize> {
        match self {
            Entry::Frame { frame, .. } => frame.span(),
            Entry::Refused { place, end, .. } => *place..*end,
        }
    }

    fn of(record: &Record, room: &[u8]) -> Result<Self> {
        if record[0] != 0 {
            let [words @ .., _, end] = *record;
            let refusal = Refusal(words);
            let (place, end, error) = (refusal.place(), end as usize, refusal.error());
            return Ok(Entry::Refused { place, end, error });
        }
        Ok(Entry::Frame {
            frame: DssFrame::of_record(record, room)?,
            segments: record[6] as usize,
        })
    }
}
