//! DDM: objects, parameters, the builder. By db2-proto's names.
mod builder;
mod object;

pub use builder::{build_ddm_object, build_param, build_param_u16, DdmBuilder};
pub use object::{parse_ddm_objects, DdmObject, DdmParam};
