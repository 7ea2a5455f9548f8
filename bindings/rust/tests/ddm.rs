//! Objects, parameters, the builder.
mod common;
use common::{hex, pattern};
use lattrugone::ddm::*;
use lattrugone::ProtoError::{self, BufferTooShort, LengthTooLarge, Other};

fn object(code_point: u16, data: &[u8]) -> DdmObject {
    DdmObject {
        code_point,
        data: data.to_vec(),
    }
}

fn param(code_point: u16, data: &[u8]) -> DdmParam {
    DdmParam {
        code_point,
        data: data.to_vec(),
    }
}

fn short(expected: usize, actual: usize) -> ProtoError {
    BufferTooShort { expected, actual }
}

#[test]
fn what_is_built_is_read() {
    for len in [0, 1, 5, 32762, 32763, 32764, 32772, 70000] {
        let data = pattern(len);
        let built = build_ddm_object(0x241B, &data);
        assert_eq!(
            DdmObject::parse(&built),
            Ok((object(0x241B, &data), built.len()))
        );
        assert_eq!(object(0x241B, &data).total_length(), built.len());
        assert_eq!(build_param(0x241B, &data), built);
        let mut builder = DdmBuilder::new(0x2001);
        builder.add_raw(&data);
        assert_eq!(builder.build(), build_ddm_object(0x2001, &data));
        // and what follows it doesn't matter
        let longer = [&built[..], &[0xFF; 9]].concat();
        assert_eq!(
            DdmObject::parse(&longer),
            Ok((object(0x241B, &data), built.len()))
        );
    }
}

#[test]
fn the_edge_between_inline_and_extended() {
    assert_eq!(
        build_ddm_object(0x2412, &pattern(32763))[..4],
        hex("7FFF 2412")
    );
    let built = build_ddm_object(0x2412, &pattern(32764));
    assert_eq!(
        (&built[..8], built.len()),
        (&hex("8008 2412 00007FFC")[..], 32772)
    );
}

#[test]
fn the_builder() {
    let mut builder = DdmBuilder::new(0x1041);
    builder
        .add_u16(0x1404, 0x2116)
        .add_u32(0x2105, 0xDEADBEEF)
        .add_code_point(0x115E, b"ab");
    builder.add_raw(&hex("0004 119C"));
    let data = hex("0006 1404 2116 0008 2105 DEADBEEF 0006 115E 6162 0004 119C");
    assert_eq!(builder.build(), build_ddm_object(0x1041, &data));
    // building alters nothing
    assert_eq!(builder.clone().build(), builder.build());
    let (built, consumed) = DdmObject::parse(&builder.build()).unwrap();
    assert_eq!((built.code_point, consumed), (0x1041, 28));
    let expected = [
        param(0x1404, &hex("2116")),
        param(0x2105, &hex("DEADBEEF")),
        param(0x115E, b"ab"),
        param(0x119C, &[]),
    ];
    assert_eq!(built.parameters(), expected);
    assert_eq!(DdmBuilder::new(0x200D).build(), hex("0004 200D"));
    assert_eq!(build_param_u16(0x1404, 0x2116), hex("0006 1404 2116"));
    let mut long = DdmBuilder::new(0x2001);
    long.add_code_point(0x2414, &pattern(40000))
        .add_u16(0x1404, 1);
    let (long, _) = DdmObject::parse(&long.build()).unwrap();
    assert_eq!(
        long.parameters(),
        [param(0x2414, &pattern(40000)), param(0x1404, &[0, 1])]
    );
}

/// All lists of up to three of these parameters, and the empty one.
fn lists_of(params: &[DdmParam]) -> Vec<Vec<DdmParam>> {
    let mut lists = vec![vec![]];
    let mut last = 0;
    for _ in 0..3 {
        let first = std::mem::replace(&mut last, lists.len());
        for at in first..last {
            for param in params {
                lists.push([&lists[at][..], &[param.clone()]].concat());
            }
        }
    }
    lists
}

#[test]
fn two_lists_two_byte_strings() {
    // data and code points that look like lengths, so that a list could be taken for another where a length is not counted
    let contents = ["", "00", "0004", "00040004", "0005000400", "8008"];
    let mut params = Vec::new();
    for code_point in [0, 4, 0x0500, 0x8008] {
        params.extend(contents.map(|digits| param(code_point, &hex(digits))));
    }
    let mut lists = lists_of(&params);
    assert_eq!(lists.len(), 1 + 24 + 24 * 24 + 24 * 24 * 24);

    // inline and extended, and a byte that goes from the end of one to the next
    for len in [32762, 32763, 32764, 65535] {
        for cut in [0, 1, len / 2, len - 1, len] {
            let bytes = pattern(len);
            lists.push(vec![
                param(0x2414, &bytes[..cut]),
                param(0x2414, &bytes[cut..]),
            ]);
        }
    }

    let mut seen = std::collections::HashSet::new();
    for list in lists {
        let mut builder = DdmBuilder::new(0x2001);
        for DdmParam { code_point, data } in &list {
            builder.add_code_point(*code_point, data);
        }
        let bytes = builder.build();
        let (object, consumed) = DdmObject::parse(&bytes).unwrap();
        assert_eq!((object.parameters(), consumed), (list, bytes.len()));
        assert!(seen.insert(bytes), "two lists are one byte string");
    }
}

#[test]
fn numbers_in_parameters() {
    let of = |digits: &str| {
        let p = param(0x1149, &hex(digits));
        (p.as_u16(), p.as_u32(), p.as_i32())
    };
    assert_eq!(of(""), (None, None, None));
    assert_eq!(of("FF"), (None, None, None));
    assert_eq!(of("0004"), (Some(4), None, None));
    assert_eq!(of("FFFEFF"), (Some(0xFFFE), None, None));
    assert_eq!(of("FFFFFFFE"), (Some(0xFFFF), Some(0xFFFFFFFE), Some(-2)));
    assert_eq!(
        of("80000000"),
        (Some(0x8000), Some(1 << 31), Some(i32::MIN))
    );
    assert_eq!(
        of("7FFFFFFF 01"),
        (Some(0x7FFF), Some(0x7FFFFFFF), Some(i32::MAX))
    );
}

#[test]
fn objects_that_are_refused() {
    let refused = |digits: &str| DdmObject::parse(&hex(digits)).unwrap_err();
    assert_eq!(refused("000424"), short(4, 3));
    assert_eq!(refused("0006 2412 C1"), short(6, 5));
    assert_eq!(refused("800A 2412 0000"), short(10, 6));
    assert_eq!(refused("8006 2412 0002 C1"), short(8, 7));
    let header = "extended DDM header length 0 is less than minimum 4";
    assert_eq!(refused("8000 2412"), Other(header.to_string()));
    assert_eq!(refused("8000 2412").to_string(), header);
    let inline = "DDM length 0 is less than header size 4 for code point 0x0041";
    assert_eq!(refused("0000 0041"), Other(inline.to_string()));
    // where db2-proto loses bits, wraps or stops
    assert_eq!(refused("800D 2412 010000000000000000"), LengthTooLarge(13));
    assert_eq!(refused("800C 2412 FFFFFFFFFFFFFFF4"), LengthTooLarge(12));
    assert_eq!(refused("800C 2412 FFFFFFFFFFFFFFF3"), short(usize::MAX, 12));
}

#[test]
fn lists_of_objects() {
    let objects = |digits: &str| parse_ddm_objects(&hex(digits));
    assert_eq!(objects(""), Ok(vec![]));
    assert_eq!(objects("000424"), Ok(vec![]));
    let two = vec![object(0x200D, &[]), object(0x2412, &[0xC1])];
    assert_eq!(objects("0004200D 00052412C1 FFFFFF"), Ok(two.clone()));
    assert_eq!(objects("0004200D 8005241201C1"), Ok(two));
    assert_eq!(objects("0004200D 0005241 2"), Err(short(5, 4)));
    assert_eq!(
        objects("0004200D 8004241B C1C2"),
        Ok(vec![object(0x200D, &[]), object(0x241B, &[0xC1, 0xC2])])
    );
}

#[test]
fn parameters_end_at_the_first_that_is_unfit() {
    let first = param(0x2412, &[]);
    for rest in [
        "",
        "0003",
        "00032412",
        "00052412",
        "80032412",
        "800A2412",
        "800C2412 FFFFFFFFFFFFFFF0",
    ] {
        let o = object(0x2001, &hex(&format!("00042412 {rest}")));
        assert_eq!(o.parameters(), std::slice::from_ref(&first), "{rest}");
        assert_eq!(o.find_param(0x2412).as_ref(), Some(&first));
        assert_eq!(o.find_param(0x0005), None);
    }
}

#[test]
fn the_first_parameter_is_found() {
    let o = object(0x2001, &hex("0005 2412 01 0005 2413 02 0005 2412 03"));
    assert_eq!(o.find_param(0x2412), Some(param(0x2412, &[1])));
    assert_eq!(o.find_param(0x2413), Some(param(0x2413, &[2])));
    assert_eq!(o.find_param(0x2414), None);
}

/// Data of a long object with a marker at each boundary, and the same without.
fn marked(len: usize) -> (Vec<u8>, Vec<u8>) {
    let plain = pattern(len);
    let mut data = plain[..32757].to_vec();
    for chunk in plain[32757..].chunks(32764) {
        data.extend([0x7F, 0xFE]);
        data.extend(chunk);
    }
    (data, plain)
}

#[test]
fn markers_come_out_of_a_long_object() {
    for len in [32758, 32757 + 32764, 32757 + 32764 + 1, 150000] {
        let (data, plain) = marked(len);
        let bytes = [&hex("8004 241B")[..], &data].concat();
        assert_eq!(
            DdmObject::parse(&bytes),
            Ok((object(0x241B, &plain), bytes.len()))
        );
        assert_eq!(parse_ddm_objects(&bytes), Ok(vec![object(0x241B, &plain)]));
        let outer = object(0x2001, &[&hex("0004 2412")[..], &bytes].concat());
        assert_eq!(
            outer.parameters(),
            [param(0x2412, &[]), param(0x241B, &plain)]
        );
        assert_eq!(outer.find_param(0x241B), Some(param(0x241B, &plain)));
    }
}

#[test]
fn markers_stay_where_none_is_looked_for() {
    let mut data = pattern(40000);
    let bytes = |data: &[u8]| [&hex("8004 241B")[..], data].concat();
    assert_eq!(
        DdmObject::parse(&bytes(&data)).unwrap().0,
        object(0x241B, &data)
    );
    // up to 32,759 bytes
    data[32757..32759].copy_from_slice(&[0x7F, 0xFE]);
    let short = &data[..32759];
    assert_eq!(
        DdmObject::parse(&bytes(short)).unwrap().0,
        object(0x241B, short)
    );
    let long = &data[..32760];
    let without = [&data[..32757], &data[32759..32760]].concat();
    assert_eq!(
        DdmObject::parse(&bytes(long)).unwrap().0,
        object(0x241B, &without)
    );
}
