// Objects and parameters.
use crate::answers::Bytes;
use crate::names::seen::{Derived, Item, Seen};
use proto::ddm::{parse_ddm_objects, DdmObject, DdmParam};
use values::{derived, why};

fn object(object: DdmObject) -> Item {
    (object.code_point, Bytes(object.data))
}

fn param(param: DdmParam) -> Item {
    (param.code_point, Bytes(param.data))
}

fn with_data(data: &[u8]) -> DdmObject {
    DdmObject {
        code_point: 0x2412,
        data: data.to_vec(),
    }
}

/// The object at the front, and how many bytes it takes.
pub fn parse(bytes: &[u8]) -> Seen<(Item, usize)> {
    let (first, consumed) = DdmObject::parse(bytes).map_err(why)?;
    Ok((object(first), consumed))
}

pub fn all(bytes: &[u8]) -> Seen<Vec<Item>> {
    let all = parse_ddm_objects(bytes).map_err(why)?;
    Ok(all.into_iter().map(object).collect())
}

pub fn parameters(data: &[u8]) -> Vec<Item> {
    let all = with_data(data).parameters();
    all.into_iter().map(param).collect()
}

pub fn find(data: &[u8], code_point: u16) -> Option<Item> {
    with_data(data).find_param(code_point).map(param)
}

pub fn total_length(data: &[u8]) -> usize {
    with_data(data).total_length()
}

/// The three numbers that data can be read as.
pub fn numbers(data: &[u8]) -> (Option<u16>, Option<u32>, Option<i32>) {
    let param = DdmParam {
        code_point: 0x2412,
        data: data.to_vec(),
    };
    (param.as_u16(), param.as_u32(), param.as_i32())
}

/// How an object and a parameter of these data are shown, and whether they equal those of other data.
pub fn shown(data: &[u8], other: &[u8]) -> (Derived, Derived, [bool; 2]) {
    let of = |data: &[u8]| DdmParam {
        code_point: 0x2412,
        data: data.to_vec(),
    };
    let (object, param) = (with_data(data), of(data));
    let equal = [object == with_data(other), param == of(other)];
    let object = derived(&object, |a, b| a == b);
    (object, derived(&param, |a, b| a == b), equal)
}
