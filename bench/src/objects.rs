//! Objects: parsing, parameters, the builder, marker removal.

use crate::clock::{fastest, timed, Lent};
use crate::inputs;
use crate::lines::Line;
use crate::{CALLS, WORDS};
use db2_proto::ddm::{DdmBuilder, DdmObject};
use lattrugone::port::{self, OBJECT_WORDS};
use std::hint::black_box;

/// Times two calls that take less than a microsecond, each made `CALLS` times a repeat.
pub fn short(name: &str, repeats: usize, mut rust: impl FnMut(), mut port: impl FnMut()) -> Line {
    let [rust, port] = fastest(
        repeats,
        [
            &mut |_| timed(|| (0..CALLS).for_each(|_| rust())),
            &mut |_| timed(|| (0..CALLS).for_each(|_| port())),
        ],
    );
    Line {
        name: name.to_string(),
        rust: rust / CALLS as f64,
        port: port / CALLS as f64,
        memcpy: None,
        goal: 1.0,
    }
}

/// `DdmObject::parse`, which copies the object's data in the Rust and finds its place in the port.
pub fn object(name: &str, repeats: usize) -> Line {
    let reply = inputs::reply();
    let mut words = WORDS;
    let mut work = [1u8; 8];
    let (parsed, consumed) = DdmObject::parse(&reply).unwrap();
    assert_eq!(port::object(&reply, 0, &mut work, &mut words), 0);
    assert_eq!(
        words[2..7],
        [
            parsed.code_point as u64,
            0,
            4,
            parsed.data.len() as u64,
            consumed as u64
        ]
    );
    short(
        name,
        repeats,
        || {
            black_box(DdmObject::parse(black_box(&reply)).unwrap());
        },
        || {
            port::object(black_box(&reply), 0, &mut work, &mut words);
            black_box(&words);
        },
    )
}

pub fn parameters(name: &str, repeats: usize) -> Line {
    let (parsed, _) = DdmObject::parse(&inputs::reply()).unwrap();
    let listed = parsed.parameters();
    let mut words = WORDS;
    let mut work = [1u8; 8];
    let mut row = vec![1u64; OBJECT_WORDS * listed.len()];
    assert_eq!(
        port::parameters(&parsed.data, &mut work, &mut row, &mut words),
        0
    );
    assert_eq!(words[2], listed.len() as u64);
    short(
        name,
        repeats,
        || {
            black_box(black_box(&parsed).parameters());
        },
        || {
            port::parameters(black_box(&parsed.data), &mut work, &mut row, &mut words);
            black_box((&row, &words));
        },
    )
}

pub fn find(name: &str, repeats: usize, code_point: u16) -> Line {
    let (parsed, _) = DdmObject::parse(&inputs::reply()).unwrap();
    let found = parsed.find_param(code_point).unwrap();
    let mut words = WORDS;
    let mut work = [1u8; 8];
    assert_eq!(
        port::find_param(&parsed.data, code_point, &mut work, &mut words),
        0
    );
    let (at, len) = (words[4] as usize, words[5] as usize);
    assert_eq!(parsed.data[at..at + len], found.data);
    short(
        name,
        repeats,
        || {
            black_box(black_box(&parsed).find_param(code_point));
        },
        || {
            port::find_param(black_box(&parsed.data), code_point, &mut work, &mut words);
            black_box(&words);
        },
    )
}

/// A builder with 40 parameters, and its object.
pub fn build(name: &str, repeats: usize) -> Line {
    let params: Vec<(u16, Vec<u8>)> = inputs::PARAMS
        .map(|cp| (cp, inputs::param_data(cp)))
        .collect();
    let reply = inputs::reply();
    let mut content = vec![1u8; reply.len()];
    let mut room = vec![1u8; reply.len()];
    let mut words = WORDS;
    let mut port_builds = |room: &mut [u8]| {
        let mut fill = 0;
        for (code_point, data) in black_box(&params) {
            port::builder_add_code_point(fill, *code_point, data, &mut content, &mut words);
            fill = words[2] as usize;
        }
        port::builder_build(inputs::CODE_POINT, fill, &content, room, &mut words);
        words[2] as usize
    };
    assert_eq!(port_builds(&mut room), reply.len());
    assert!(room == reply);
    short(
        name,
        repeats,
        || {
            let mut builder = DdmBuilder::new(inputs::CODE_POINT);
            for (code_point, data) in black_box(&params) {
                builder.add_code_point(*code_point, data);
            }
            black_box(builder.build());
        },
        || {
            port_builds(&mut room);
            black_box(&room);
        },
    )
}

/// Marker removal. The Rust's function is private, and is reached through `DdmObject::parse` of an object of raw length 0x8004.
pub fn markers(name: &str, repeats: usize, object: &[u8]) -> Line {
    let (parsed, _) = DdmObject::parse(object).unwrap();
    let mut room = vec![1; parsed.data.len()];
    let mut words = WORDS;
    assert_eq!(port::strip_markers(&object[4..], &mut room, &mut words), 0);
    assert_eq!(words[2] as usize, parsed.data.len());
    assert!(room == parsed.data);
    let mut to_rust = Lent::new(object, 0);
    let mut to_port = Lent::new(object, parsed.data.len());
    let [rust, port] = fastest(
        repeats,
        [
            &mut |repeat| {
                let (object, _) = to_rust.turn(repeat);
                timed(|| {
                    black_box(DdmObject::parse(object).unwrap());
                })
            },
            &mut |repeat| {
                let (object, room) = to_port.turn(repeat);
                timed(|| {
                    port::strip_markers(&object[4..], room, &mut words);
                    black_box((&room, &words));
                })
            },
        ],
    );
    Line {
        name: name.to_string(),
        rust,
        port,
        memcpy: None,
        goal: 1.0,
    }
}
