//! Objects and parameters.
use crate::loan::{ask, Loan};
use crate::port::{self, OBJECT_WORDS};
use crate::Result;

/// A parameter in an object's data.
#[derive(Debug, Clone, PartialEq)]
pub struct DdmParam {
    /// What it is.
    pub code_point: u16,
    /// Its data.
    pub data: Vec<u8>,
}

impl DdmParam {
    /// The number in the first two bytes, where there are two.
    pub fn as_u16(&self) -> Option<u16> {
        let words = ask(|words| port::as_u16(&self.data, words)).ok()?;
        Some(words[2] as u16)
    }

    /// The number in the first four bytes, where there are four.
    pub fn as_u32(&self) -> Option<u32> {
        let words = ask(|words| port::as_u32(&self.data, words)).ok()?;
        Some(words[2] as u32)
    }

    /// The same with a sign.
    pub fn as_i32(&self) -> Option<i32> {
        let words = ask(|words| port::as_i32(&self.data, words)).ok()?;
        Some(words[2] as i64 as i32)
    }
}

/// An object.
#[derive(Debug, Clone, PartialEq)]
pub struct DdmObject {
    /// What it is.
    pub code_point: u16,
    /// Its data, which may be parameters.
    pub data: Vec<u8>,
}

impl DdmObject {
    /// The object at the front of `bytes`, and how many of them it takes.
    pub fn parse(bytes: &[u8]) -> Result<(Self, usize)> {
        let loan = <Loan>::of(|loan| port::object(bytes, 0, &mut loan.room, &mut loan.words))?;
        let (code_point, data) = read(&loan.words, bytes, &loan.room);
        Ok((Self { code_point, data }, loan.words[6] as usize))
    }

    /// The parameters in its data, up to the first that is unfit.
    ///
    /// ```
    /// use lattrugone::ddm::DdmObject;
    ///
    /// let object = DdmObject { code_point: 0x1041, data: vec![0, 6, 0x14, 0x04, 0x21, 0x16, 0, 9, 0x11] };
    /// let parameters = object.parameters();
    /// assert_eq!(parameters.len(), 1);
    /// assert_eq!((parameters[0].code_point, parameters[0].as_u16()), (0x1404, Some(0x2116)));
    /// ```
    pub fn parameters(&self) -> Vec<DdmParam> {
        let found = Loan::<OBJECT_WORDS>::of(|loan| {
            let (room, row, words) = (&mut loan.room, &mut loan.row, &mut loan.words);
            port::parameters(&self.data, room, row, words)
        });
        let loan = found.expect("the room that it takes is lent");
        let param = |record| self.param(record, &loan.room);
        loan.records().map(param).collect()
    }

    /// The first parameter with a code point.
    pub fn find_param(&self, code_point: u16) -> Option<DdmParam> {
        let found = <Loan>::of(|loan| {
            let (room, words) = (&mut loan.room, &mut loan.words);
            port::find_param(&self.data, code_point, room, words)
        });
        let loan = found.ok()?;
        Some(self.param(&loan.words, &loan.room))
    }

    /// The same object with new bytes in the first parameter of a code point: added. In this order: `UnsoundData` where the
    /// parameters don't fill its data or one has raw length 0x8004, `NotFound`. A place is a byte of the data.
    ///
    /// ```
    /// use lattrugone::ddm::DdmObject;
    /// use lattrugone::ProtoError;
    ///
    /// # fn main() -> lattrugone::Result<()> {
    /// let object = DdmObject { code_point: 0x2412, data: vec![0, 5, 0x14, 0x7A, 0xF0, 0, 4, 0x21, 0x10] };
    /// let changed = object.with_param(0x147A, &[0xF0, 0xF4])?;
    /// assert_eq!(changed.data, [0, 6, 0x14, 0x7A, 0xF0, 0xF4, 0, 4, 0x21, 0x10]);
    /// assert_eq!(object.with_param(0x2114, &[]), Err(ProtoError::NotFound));
    /// # Ok(())
    /// # }
    /// ```
    pub fn with_param(&self, code_point: u16, new: &[u8]) -> Result<Self> {
        let loan = <Loan>::of(|loan| {
            let (room, words) = (&mut loan.room, &mut loan.words);
            port::change_param(&self.data, code_point, new, room, words)
        })?;
        Ok(Self {
            code_point: self.code_point,
            data: loan.room,
        })
    }

    /// How many bytes the builder makes of it.
    pub fn total_length(&self) -> usize {
        port::object_total_length(self.data.len())
    }

    fn param<const WIDTH: usize>(&self, words: &[u64; WIDTH], work: &[u8]) -> DdmParam {
        let (code_point, data) = read(words, &self.data, work);
        DdmParam { code_point, data }
    }
}

/// All objects of `bytes`, one behind the other; 1 to 3 last bytes are ignored.
pub fn parse_ddm_objects(bytes: &[u8]) -> Result<Vec<DdmObject>> {
    let loan = Loan::<OBJECT_WORDS>::of(|loan| {
        let (room, row, words) = (&mut loan.room, &mut loan.row, &mut loan.words);
        port::objects(bytes, room, row, words)
    })?;
    let object = |record| {
        let (code_point, data) = read(record, bytes, &loan.room);
        DdmObject { code_point, data }
    };
    Ok(loan.records().map(object).collect())
}

/// Code point and data of an object's or a parameter's words, an answer's or a record's: the data are a part of the run or of the work
/// area.
fn read<const WIDTH: usize>(words: &[u64; WIDTH], run: &[u8], work: &[u8]) -> (u16, Vec<u8>) {
    let [code_point, in_work, at, len] = [words[2], words[3], words[4], words[5]];
    let from = if in_work == 1 { work } else { run };
    let data = &from[at as usize..][..len as usize];
    (code_point as u16, data.to_vec())
}
