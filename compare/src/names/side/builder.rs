// The builder.
use crate::answers::Bytes;
use crate::ddm::building::Call::{self, *};
use proto::ddm::{build_ddm_object, build_param, build_param_u16, DdmBuilder};

pub struct Builder(DdmBuilder);

impl Builder {
    pub fn new(code_point: u16) -> Builder {
        Builder(DdmBuilder::new(code_point))
    }

    /// Adds, and says whether the builder itself is handed back.
    pub fn add(&mut self, call: Call, data: &[u8]) -> bool {
        let itself = &self.0 as *const DdmBuilder;
        let back: &mut DdmBuilder = match call {
            AddCodePoint { cp } => self.0.add_code_point(cp, data),
            AddRaw => self.0.add_raw(data),
            AddU16 { cp, val } => self.0.add_u16(cp, val),
            AddU32 { cp, val } => self.0.add_u32(cp, val),
            _ => panic!("this call has no builder"),
        };
        back as *const DdmBuilder == itself
    }

    pub fn build(&self) -> Bytes {
        Bytes(self.0.build())
    }

    /// All that it holds, and its clone.
    pub fn shown(&self) -> String {
        format!("{:?} {:?}", self.0, self.0.clone())
    }
}

/// One of the three functions that build at once.
pub fn build(call: Call, data: &[u8]) -> Bytes {
    Bytes(match call {
        BuildParam { cp } => build_param(cp, data),
        BuildParamU16 { cp, value } => build_param_u16(cp, value),
        BuildObject { cp } => build_ddm_object(cp, data),
        _ => panic!("no such function"),
    })
}
