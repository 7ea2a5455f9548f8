//! The reader.
use super::{DssHeader, FrameMeasure, Rules};
use crate::error::Refusal;
use crate::loan::{ask, Loan};
use crate::port::{self, Record, Words, RECORD_WORDS};
use crate::{ProtoError, Result};
use std::fmt::{self, Debug, Formatter};
use std::ops::Range;

/// A frame: its first head, its payload, and where it stood.
#[derive(Clone)]
pub struct DssFrame {
    /// The first head; chained as the last absorbed segment says.
    pub header: DssHeader,
    /// The payloads of all its segments, joined.
    pub payload: Vec<u8>,
    span: Range<usize>,
}

/// As db2-proto shows one: where it stood isn't shown.
impl Debug for DssFrame {
    fn fmt(&self, out: &mut Formatter) -> fmt::Result {
        let mut shown = out.debug_struct("DssFrame");
        shown.field("header", &self.header);
        shown.field("payload", &self.payload).finish()
    }
}

impl DssFrame {
    /// Where it stood in the bytes it was read from, with its continuations and what it absorbed: from its first byte up to the byte
    /// after its last. Added. A reader's bytes are counted from the first one that it was given, as [`DssReader::position`] is.
    ///
    /// ```
    /// use lattrugone::dss::{build_dss_object, DssReader};
    ///
    /// # fn main() -> lattrugone::Result<()> {
    /// let mut run = build_dss_object(1, false, b"station 0412");
    /// run.extend(build_dss_object(2, false, &[0xF0; 40000]));
    /// let frames = DssReader::new(run.clone()).read_all_frames()?;
    /// assert_eq!((frames[0].span(), frames[1].span()), (0..18, 18..40026));
    /// assert_eq!(run[frames[1].span()][..6], [0xFF, 0xFF, 0xD0, 0x03, 0x00, 0x02]);
    /// # Ok(())
    /// # }
    /// ```
    pub fn span(&self) -> Range<usize> {
        self.span.clone()
    }

    /// Of a record in a row, its payload being a part of the room.
    pub(super) fn of_record(record: &Record, room: &[u8]) -> Result<Self> {
        let [_, at, .., len, _, _, first, end] = record.map(|word| word as usize);
        Ok(Self {
            header: DssHeader::of_frame(record)?,
            payload: room[at..at + len].to_vec(),
            span: first..end,
        })
    }
}

/// Reads frames from bytes that arrive one after the other.
///
/// ```
/// use lattrugone::dss::DssReader;
///
/// # fn main() -> lattrugone::Result<()> {
/// let mut reader = DssReader::new(vec![0x00, 0x07, 0xD0, 0x02, 0x00, 0x07]);
/// assert!(reader.next_frame()?.is_none());
/// reader.extend(&[0xC1]);
/// assert_eq!(reader.next_frame()?.unwrap().payload, [0xC1]);
/// assert_eq!(reader.remaining(), 0);
/// # Ok(())
/// # }
/// ```
#[derive(Debug, Clone)]
pub struct DssReader {
    buffer: Vec<u8>,
    position: usize,
}

impl DssReader {
    /// A reader at the first byte.
    pub fn new(data: Vec<u8>) -> Self {
        Self {
            buffer: data,
            position: 0,
        }
    }

    /// Adds bytes that have arrived.
    pub fn extend(&mut self, data: &[u8]) {
        self.buffer.extend_from_slice(data);
    }

    /// How many bytes aren't read yet.
    pub fn remaining(&self) -> usize {
        port::remaining(&self.buffer, self.position)
    }

    /// Where it stands: added. After an error, that is the head that was refused; where a frame isn't whole, it stays.
    pub fn position(&self) -> usize {
        self.position
    }

    /// Where the next frame has a continuation length of 0 or 1, so that it is never whole; none where it is whole, or may become
    /// so: added. After [`DssReader::next_frame`] gave none this says whether to wait for more bytes: where there is a place, none
    /// that arrive can help, and the connection is to be given up. The place is that length's first byte, counted as
    /// [`DssReader::position`] is, which stays at the frame's. It is asked anew of the bytes each time.
    ///
    /// ```
    /// use lattrugone::dss::{build_dss_object, DssReader};
    ///
    /// # fn main() -> lattrugone::Result<()> {
    /// let mut frame = build_dss_object(1, false, &[0xF0; 40000]);
    /// frame[32767..32769].copy_from_slice(&[0, 1]);
    /// let mut reader = DssReader::new(frame[..32768].to_vec());
    /// assert!(reader.next_frame()?.is_none());
    /// assert_eq!(reader.dead_at(), None);
    /// reader.extend(&frame[32768..]);
    /// assert!(reader.next_frame()?.is_none());
    /// assert_eq!((reader.dead_at(), reader.position()), (Some(32767), 0));
    /// # Ok(())
    /// # }
    /// ```
    pub fn dead_at(&self) -> Option<usize> {
        match ask(|words| port::frame_end(&self.buffer, self.position, words)) {
            Err(refusal) if refusal.is_never_whole() => Some(refusal.place()),
            _ => None,
        }
    }

    /// Whether the next frame is whole.
    pub fn has_complete_frame(&self) -> bool {
        port::has_frame(&self.buffer, self.position) == 1
    }

    /// The byte after the first frame's last, where it is whole.
    pub fn first_complete_frame_len(data: &[u8]) -> Option<usize> {
        let words = ask(|words| port::first_frame_end(data, words)).ok()?;
        Some(words[2] as usize)
    }

    /// The next frame, or none where it isn't whole: yet, or ever, which [`DssReader::dead_at`] tells apart.
    pub fn next_frame(&mut self) -> Result<Option<DssFrame>> {
        Ok(self.next_frame_counted()?.map(|(frame, _)| frame))
    }

    /// The same, and of how many segments it is: added.
    pub fn next_frame_counted(&mut self) -> Result<Option<(DssFrame, usize)>> {
        let read = <Loan>::of(|loan| {
            let (room, words) = (&mut loan.room, &mut loan.words);
            port::next_frame(&self.buffer, self.position, room, words)
        });
        match read {
            Ok(loan) => {
                let taken = self.stands_behind(&loan.words)?;
                let frame = DssFrame {
                    header: taken.header,
                    payload: loan.room,
                    span: taken.span,
                };
                Ok(Some((frame, taken.segments)))
            }
            Err(refusal) if refusal.is_not_whole() => Ok(None),
            Err(refusal) => Err(self.refused(refusal)),
        }
    }

    /// The next frame without its payload, by the reader's rules or by salvage's, or none where it isn't whole: added. Nothing is
    /// copied, and the position stays, also with an error. [`FrameMeasure::payload_len`] is the room that
    /// [`DssReader::take_into`] needs: lent that much, it isn't refused.
    ///
    /// ```
    /// use lattrugone::dss::{build_dss_object, DssReader, Rules};
    ///
    /// # fn main() -> lattrugone::Result<()> {
    /// let mut run = build_dss_object(1, false, b"station 0412");
    /// run.extend(build_dss_object(2, false, &[0xF0; 40000]));
    /// let mut reader = DssReader::new(run);
    /// let mut payloads = Vec::new();
    /// while let Some(measure) = reader.measure(Rules::Reader)? {
    ///     let mut payload = vec![0; measure.payload_len];
    ///     reader.take_into(Rules::Reader, &mut payload)?;
    ///     payloads.push(payload);
    /// }
    /// assert_eq!(payloads, [b"station 0412".to_vec(), vec![0xF0; 40000]]);
    /// # Ok(())
    /// # }
    /// ```
    pub fn measure(&self, rules: Rules) -> Result<Option<FrameMeasure>> {
        let (run, at) = (&self.buffer, self.position);
        match ask(|words| port::measure_frame(rules.number(), run, at, words)) {
            Ok(words) => FrameMeasure::of_words(&words).map(Some),
            Err(refusal) if refusal.is_not_whole() => Ok(None),
            Err(refusal) => Err(refusal.error()),
        }
    }

    /// Lays the next frame's payload down at the start of a room, by the reader's rules or by salvage's, and stands behind the frame
    /// then; none where it isn't whole: added. The rest of the room stays, and with none or an error all of it does. By the
    /// reader's rules it is [`DssReader::next_frame`] without its allocation, errors and position alike; the one error more is
    /// [`ProtoError::NoRoom`], the last of all, with which the position stays. It reads the frame itself, whatever was measured
    /// before.
    ///
    /// ```
    /// use lattrugone::dss::{build_dss_object, DssReader, Rules};
    /// use lattrugone::ProtoError;
    ///
    /// # fn main() -> lattrugone::Result<()> {
    /// let mut reader = DssReader::new(build_dss_object(1, false, b"0412"));
    /// let mut room = [0xFF; 6];
    /// let short = reader.take_into(Rules::Reader, &mut room[..3]);
    /// assert_eq!(short.unwrap_err(), ProtoError::NoRoom { needed: 4 });
    /// let taken = reader.take_into(Rules::Reader, &mut room)?.expect("a whole frame");
    /// assert_eq!((taken.payload_len, taken.span), (4, 0..10));
    /// assert_eq!(&room, b"0412\xFF\xFF");
    /// assert_eq!(reader.remaining(), 0);
    /// # Ok(())
    /// # }
    /// ```
    pub fn take_into(&mut self, rules: Rules, room: &mut [u8]) -> Result<Option<FrameMeasure>> {
        let (run, at) = (&self.buffer, self.position);
        match ask(|words| port::take_frame(rules.number(), run, at, room, words)) {
            Ok(words) => self.stands_behind(&words).map(Some),
            Err(refusal) if refusal.is_not_whole() => Ok(None),
            Err(refusal) => Err(self.refused(refusal)),
        }
    }

    fn stands_behind(&mut self, words: &Words) -> Result<FrameMeasure> {
        let taken = FrameMeasure::of_words(words)?;
        self.position = taken.span.end;
        Ok(taken)
    }

    /// All frames up to the first that isn't whole. Where one is refused, all are.
    pub fn read_all_frames(&mut self) -> Result<Vec<DssFrame>> {
        let read = Loan::<RECORD_WORDS>::of(|loan| {
            let (room, row, words) = (&mut loan.room, &mut loan.row, &mut loan.words);
            port::read_all_frames(&self.buffer, self.position, room, row, words)
        });
        let loan = read.map_err(|refusal| self.refused(refusal))?;
        self.position = loan.words[1] as usize;
        loan.records()
            .map(|record| DssFrame::of_record(record, &loan.room))
            .collect()
    }

    /// Hands out the bytes that aren't read yet.
    pub fn into_remaining(mut self) -> Vec<u8> {
        self.buffer.split_off(self.position)
    }

    /// The head that is refused is where the position then stands. Not so where a frame isn't whole, which is no error.
    fn refused(&mut self, refusal: Refusal) -> ProtoError {
        self.position = refusal.place();
        refusal.error()
    }
}
