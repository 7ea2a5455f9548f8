//! Changing one parameter among 40, of data and of a request already built. The Rust has no such call: its way is to list all
//! parameters and to build all again.

use crate::clock::{fastest, timed};
use crate::inputs;
use crate::lines::Line;
use crate::objects::short;
use crate::{CALLS, WORDS};
use db2_proto::ddm::{DdmBuilder, DdmObject};
use db2_proto::dss::{DssReader, DssWriter};
use lattrugone::port;
use std::hint::black_box;

/// The most that port / Rust is to be.
const GOAL: f64 = 0.5;

/// The parameter that is changed, in the middle.
const CHANGED: u16 = inputs::PARAMS.start + 20;

/// Three bytes more than it had.
fn new_value() -> Vec<u8> {
    inputs::noise(inputs::param_data(CHANGED).len() + 3)
}

/// The Rust's way: the object with all parameters, one of them with the new value.
fn rebuilt(object: &DdmObject, new: &[u8]) -> Vec<u8> {
    let mut builder = DdmBuilder::new(object.code_point);
    for param in object.parameters() {
        let changed = param.code_point == CHANGED;
        builder.add_code_point(param.code_point, if changed { new } else { &param.data });
    }
    builder.build()
}

/// `change_param`, on an object's data.
pub fn param(name: &str, repeats: usize) -> Line {
    let (object, _) = DdmObject::parse(&inputs::reply()).unwrap();
    let new = new_value();
    let built = rebuilt(&object, &new);
    let mut room = vec![1; built.len() - 4];
    let mut words = WORDS;
    let mut change = |data: &[u8], room: &mut [u8]| {
        let answer = port::change_param(data, CHANGED, black_box(&new), room, &mut words);
        black_box((&room, &words));
        answer
    };
    assert_eq!(change(&object.data, &mut room), 0);
    assert!(room == built[4..]);

    let line = short(
        name,
        repeats,
        || {
            black_box(rebuilt(black_box(&object), black_box(&new)));
        },
        || {
            change(black_box(&object.data), &mut room);
        },
    );
    Line { goal: GOAL, ..line }
}

/// The Rust's way: the frame read, its object with the new value built, and a frame written.
fn rewritten(reader: &mut DssReader, new: &[u8]) -> Vec<u8> {
    let frame = reader.next_frame().unwrap().unwrap();
    let (object, _) = DdmObject::parse(&frame.payload).unwrap();
    let mut writer = DssWriter::new(frame.header.correlation_id);
    writer.write_request(&rebuilt(&object, new), frame.header.flags.chained);
    writer.finish()
}

/// `change_request`, on a request's frame. The Rust's readers own their bytes, and are made before.
pub fn request(name: &str, repeats: usize) -> Line {
    let mut writer = DssWriter::new(7);
    writer.write_request(&inputs::reply(), true);
    let frame = writer.finish();
    let new = new_value();
    let written = rewritten(&mut DssReader::new(frame.clone()), &new);
    let mut room = vec![1; written.len()];
    let mut words = WORDS;
    let mut change = |frame: &[u8], room: &mut [u8]| {
        let answer = port::change_request(frame, CHANGED, black_box(&new), room, &mut words);
        black_box((&room, &words));
        answer
    };
    assert_eq!(change(&frame, &mut room), 0);
    assert!(room == written);

    let [rust, port] = fastest(
        repeats,
        [
            &mut |_| {
                let made = (0..CALLS).map(|_| DssReader::new(frame.clone()));
                let mut readers: Vec<DssReader> = made.collect();
                timed(|| {
                    for reader in &mut readers {
                        black_box(rewritten(reader, black_box(&new)));
                    }
                })
            },
            &mut |_| {
                timed(|| {
                    for _ in 0..CALLS {
                        change(black_box(&frame), &mut room);
                    }
                })
            },
        ],
    );
    Line {
        name: name.to_string(),
        rust: rust / CALLS as f64,
        port: port / CALLS as f64,
        memcpy: None,
        goal: GOAL,
    }
}
