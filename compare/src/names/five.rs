//! What the reader comes to where the Rust refuses a type 5: by the model, as it is seen of either crate's values.
use super::seen::{Case, Frame, Seen, Why};
use crate::answers::Bytes;
use crate::salvage::model::{self, Refusal, Rules};
use db2_proto::ProtoError;

fn seen(frame: model::Frame) -> Frame {
    let head = frame.head;
    let set = [head.chained, head.continue_on_error, head.same_correlation];
    let head = (head.length, head.kind, set, head.correlation);
    (head, Bytes(frame.payload))
}

/// A refusal with the Rust's own text, and of 7, which it doesn't have, with the port's.
fn why(refusal: &Refusal) -> Why {
    let value = refusal.value as u8;
    let (case, error) = match refusal.number {
        2 => (Case::Magic(value), ProtoError::InvalidMagic(value)),
        3 => (Case::Type(value), ProtoError::InvalidDssType(value)),
        _ => {
            return Why {
                case: Case::Unshared,
                text: format!("DSS length {value} is less than header size 6"),
                debug: format!("LengthTooShort({value})"),
            }
        }
    };
    Why {
        case,
        text: error.to_string(),
        debug: format!("{error:?}"),
    }
}

/// The frame at a place, and where reading goes on: behind it, or at the head that is refused.
pub fn next(run: &[u8], at: usize) -> (Seen<Option<Frame>>, usize) {
    match model::next_frame(run, at, Rules::Reader) {
        Ok((frame, end)) => (Ok(Some(seen(frame))), end),
        Err(refusal) if refusal.is_not_whole() => (Ok(None), at),
        Err(refusal) => (Err(why(&refusal)), refusal.place),
    }
}

/// All frames from a place on.
pub fn all(run: &[u8], mut at: usize) -> (Seen<Vec<Frame>>, usize) {
    let mut all = Vec::new();
    loop {
        let (read, place) = next(run, at);
        match read {
            Ok(Some(frame)) => all.push(frame),
            Ok(None) => return (Ok(all), at),
            Err(why) => return (Err(why), place),
        }
        at = place;
    }
}
