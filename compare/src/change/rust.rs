//! What the Rust shows of a change, which it can't make itself: its lists of the parameters before and after it, and where its
//! own lengths end.
use super::case::{Call, Case};
use crate::answers::{refused, Bytes, Words};
use crate::ddm::params;
use crate::ddm::rust::raw_length;
use crate::{five, Tally};
use db2_proto::ddm::DdmObject;
use db2_proto::dss::DssReader;

/// Code points and data.
type List = Vec<(u16, Bytes)>;

fn list(object: &DdmObject) -> List {
    let params = object.parameters().into_iter();
    params.map(|p| (p.code_point, Bytes(p.data))).collect()
}

/// Data or a frame as the Rust reads them: of a frame its format byte, its correlation, and its object's code point; then all
/// parameters. Nothing where it reads no frame that is one object.
type Seen = Option<([u16; 3], List)>;

fn seen(call: Call, run: &[u8]) -> Seen {
    let mut data = run.to_vec();
    if call == Call::Param {
        let code_point = 0x2412;
        return Some(([0; 3], list(&DdmObject { code_point, data })));
    }
    let no_reply = five::refused(&DssReader::new(data.clone()).next_frame());
    if no_reply {
        five::as_request(&mut data);
    }
    let frame = DssReader::new(data).next_frame().ok()??;
    let (object, consumed) = DdmObject::parse(&frame.payload).ok()?;
    let head = frame.header;
    let kind = if no_reply {
        five::NO_REPLY
    } else {
        head.dss_type.to_byte()
    };
    let format = kind | head.flags.to_byte();
    let numbers = [format as u16, head.correlation_id, object.code_point];
    (consumed == frame.payload.len()).then(|| (numbers, list(&object)))
}

/// The Rust's list of what the port laid down is its list from before, with the first such parameter's data changed.
pub fn lists(tally: &mut Tally, case: Case, result: &[u8]) {
    let mut due = seen(case.call, case.run);
    let params = due.iter_mut().flat_map(|(_, list)| list);
    let mut such = params.filter(|(code_point, _)| *code_point == case.code_point);
    if let Some((_, data)) = such.next() {
        *data = Bytes(case.new.to_vec());
    }
    let port = seen(case.call, result);
    tally.same("parameters after", &case.input(result.len()), port, due);
}

/// How many bytes data has with the first such parameter made empty, or 17 or 11: by the Rust's list and its own lengths.
pub fn emptied(tally: &mut Tally, data: &[u8], code_point: u16) -> Result<u64, Words> {
    let items = params::parameters(tally, data).items;
    let mut end = 0;
    for item in &items {
        if raw_length(&data[item.place..]) == 0x8004 {
            break;
        }
        end = item.next();
    }
    if end < data.len() {
        return Err(refused(17, end as u64, &[]));
    }
    let first = items.iter().find(|item| item.code_point == code_point);
    let first = first.ok_or(refused(11, 0, &[]))?;
    Ok((data.len() - first.consumed + 4) as u64)
}
