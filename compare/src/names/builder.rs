//! The builder: each call, and one builder through many.
use super::{port, rust, Names};
use crate::ddm::building::{every_call, input, Call};
use crate::Chance;

pub fn compare(names: &mut Names, chance: &mut Chance, cases: u64) {
    let bytes = chance.bytes(66_000);
    for len in (0..=300).chain(32_755..=32_775).chain(65_531..=65_540) {
        let (cp, val) = (chance.next() as u16, chance.next() as u32);
        for call in every_call(cp, val) {
            one(names, call, &bytes[..len]);
        }
    }
    for val in 0..=u16::MAX {
        for call in every_call(val.rotate_left(5) ^ 0x2412, val as u32 * 0x10001) {
            one(names, call, &[0xC1]);
        }
    }
    for case in 0..cases {
        if case % 4 == 0 {
            many(names, chance);
        }
    }
}

fn named(call: Call) -> &'static str {
    match call {
        Call::AddCodePoint { .. } => "DdmBuilder::add_code_point",
        Call::AddRaw => "DdmBuilder::add_raw",
        Call::AddU16 { .. } => "DdmBuilder::add_u16",
        Call::AddU32 { .. } => "DdmBuilder::add_u32",
        Call::BuildParam { .. } => "build_param",
        Call::BuildParamU16 { .. } => "build_param_u16",
        Call::BuildObject { .. } => "build_ddm_object",
    }
}

/// A builder with one call, or one of the functions that build at once.
fn one(names: &mut Names, call: Call, data: &[u8]) {
    let input = input(call, &[data.len()]);
    if !call.adds() {
        let built = (
            port::builder::build(call, data),
            rust::builder::build(call, data),
        );
        return names.same(&[named(call)], &input, built.0, built.1);
    }
    let mut a = port::builder::Builder::new(0x2412);
    let mut b = rust::builder::Builder::new(0x2412);
    let added = (a.add(call, data), b.add(call, data));
    names.same(&[named(call)], &input, added.0, added.1);
    names.same(
        &[named(call), "DdmBuilder::build"],
        &input,
        a.build(),
        b.build(),
    );
}

/// One builder through many calls: its object after each, and all that it holds.
fn many(names: &mut Names, chance: &mut Chance) {
    let long = chance.below(256) == 0;
    let code_point = chance.next() as u16;
    let mut a = port::builder::Builder::new(code_point);
    let mut b = rust::builder::Builder::new(code_point);
    let new = &["DdmBuilder::new", "DdmBuilder::build"];
    names.same(new, &code_point.to_be_bytes(), a.build(), b.build());
    for _ in 0..chance.below(10) {
        let len = chance.below(if long { 20_000 } else { 24 });
        let data = chance.bytes(len);
        let call = every_call(chance.next() as u16, chance.next() as u32)[chance.below(4)];
        let added = (a.add(call, &data), b.add(call, &data));
        let input = input(call, &[len]);
        names.same(&[named(call)], &input, added.0, added.1);
        names.same(&["DdmBuilder::build"], &input, a.build(), b.build());
    }
    if !long {
        names.same(&["DdmBuilder"], &[], a.shown(), b.shown());
    }
}
