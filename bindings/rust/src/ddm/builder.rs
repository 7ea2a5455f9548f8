//! The builder.
use crate::loan::{append, built};
use crate::port;

/// Builds an object out of parameters.
#[derive(Debug, Clone)]
pub struct DdmBuilder {
    code_point: u16,
    data: Vec<u8>,
}

impl DdmBuilder {
    /// An object without data.
    pub fn new(code_point: u16) -> Self {
        Self {
            code_point,
            data: Vec::new(),
        }
    }

    /// Adds a parameter.
    pub fn add_code_point(&mut self, cp: u16, data: &[u8]) -> &mut Self {
        let size = port::object_total_length(data.len());
        append(&mut self.data, size, |fill, room, words| {
            port::builder_add_code_point(fill, cp, data, room, words)
        });
        self
    }

    /// Adds a parameter that is a number of two bytes.
    pub fn add_u16(&mut self, cp: u16, val: u16) -> &mut Self {
        append(
            &mut self.data,
            port::object_total_length(2),
            |fill, room, words| port::builder_add_u16(fill, cp, val, room, words),
        );
        self
    }

    /// Adds a parameter that is a number of four bytes.
    pub fn add_u32(&mut self, cp: u16, val: u32) -> &mut Self {
        append(
            &mut self.data,
            port::object_total_length(4),
            |fill, room, words| port::builder_add_u32(fill, cp, val, room, words),
        );
        self
    }

    /// Adds bytes as they are.
    pub fn add_raw(&mut self, data: &[u8]) -> &mut Self {
        append(&mut self.data, data.len(), |fill, room, words| {
            port::builder_add_raw(fill, data, room, words)
        });
        self
    }

    /// The object. Two objects built of parameters are equal bytes exactly where they have the same code point and the same
    /// parameters, with the same data in the same order, so that stored requests may be compared by their bytes.
    ///
    /// ```
    /// use lattrugone::ddm::DdmBuilder;
    ///
    /// let stored = DdmBuilder::new(0x2001).add_code_point(0x2110, b"0412").build();
    /// assert_ne!(DdmBuilder::new(0x2001).add_code_point(0x2110, b"412").build(), stored);
    /// assert_eq!(DdmBuilder::new(0x2001).add_u32(0x2110, 0x30343132).build(), stored); // the same four bytes
    /// ```
    pub fn build(&self) -> Vec<u8> {
        let (code_point, fill) = (self.code_point, self.data.len());
        built(|loan| {
            let (room, words) = (&mut loan.room, &mut loan.words);
            port::builder_build(code_point, fill, &self.data, room, words)
        })
    }
}

/// A parameter.
///
/// ```
/// assert_eq!(lattrugone::ddm::build_param(0x2412, &[0xC1]), [0x00, 0x05, 0x24, 0x12, 0xC1]);
/// ```
pub fn build_param(code_point: u16, data: &[u8]) -> Vec<u8> {
    built(|loan| port::build_param(code_point, data, &mut loan.room, &mut loan.words))
}

/// A parameter that is a number of two bytes.
pub fn build_param_u16(code_point: u16, value: u16) -> Vec<u8> {
    built(|loan| port::build_param_u16(code_point, value, &mut loan.room, &mut loan.words))
}

/// An object with a payload.
pub fn build_ddm_object(code_point: u16, payload: &[u8]) -> Vec<u8> {
    built(|loan| port::build_ddm_object(code_point, payload, &mut loan.room, &mut loan.words))
}
