// The reader.
use crate::answers::Bytes;
use crate::names::seen::{Derived, Frame, Seen};
use proto::dss::{DssFrame, DssReader};
use values::{derived, frame, why};

#[derive(Clone)]
pub struct Reader(DssReader);

impl Reader {
    pub fn new(bytes: &[u8]) -> Reader {
        Reader(DssReader::new(bytes.to_vec()))
    }

    pub fn extend(&mut self, bytes: &[u8]) {
        self.0.extend(bytes);
    }

    pub fn remaining(&self) -> usize {
        self.0.remaining()
    }

    pub fn is_whole(&self) -> bool {
        self.0.has_complete_frame()
    }

    pub fn next(&mut self) -> Seen<Option<Frame>> {
        let next = self.0.next_frame().map_err(why)?;
        Ok(next.map(frame))
    }

    pub fn all(&mut self) -> Seen<Vec<Frame>> {
        let all = self.0.read_all_frames().map_err(why)?;
        Ok(all.into_iter().map(frame).collect())
    }

    pub fn into_rest(self) -> Bytes {
        Bytes(self.0.into_remaining())
    }

    /// All that it holds: its bytes and its position.
    pub fn shown(&self) -> String {
        format!("{:?} {:?}", self.0, self.0.clone())
    }
}

pub fn first_end(bytes: &[u8]) -> Option<usize> {
    DssReader::first_complete_frame_len(bytes)
}

/// How the first frame is shown, where there is one.
pub fn first_shown(bytes: &[u8]) -> Option<Derived> {
    let frame = DssReader::new(bytes.to_vec()).next_frame().ok()??;
    let equal = |a: &DssFrame, b: &DssFrame| (&a.header, &a.payload) == (&b.header, &b.payload);
    Some(derived(&frame, equal))
}
