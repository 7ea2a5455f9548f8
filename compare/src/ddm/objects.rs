//! The Rust's objects: one at a place of a run, and all, in document 01's numbers.
use super::rust::{of_error, raw_length, too_large, TooLarge};
use crate::answers::{done, refused, Bytes, Words};
use crate::{shown, Tally};
use db2_proto::ddm::{parse_ddm_objects, DdmObject, DdmParam};

/// An object or parameter of a run.
#[derive(Clone)]
pub struct Item {
    pub place: usize,
    pub code_point: u16,
    pub data: Vec<u8>,
    pub consumed: usize,
    pub in_work: bool,
}

impl Item {
    /// "An object's data is a part of its own bytes, or of the work area once markers came out." Only raw length 0x8004 has
    /// markers removed; what the Rust hands out is then less than all that stands behind the head.
    pub fn new(
        tally: &mut Tally,
        run: &[u8],
        place: usize,
        object: DdmParam,
        consumed: usize,
    ) -> Item {
        let own = &run[place..place + consumed];
        let data = object.data;
        let in_work = raw_length(own) == 0x8004 && data.len() < consumed - 4;
        if !in_work {
            let last = &own[consumed - data.len()..];
            tally.own("where data lie", shown(run), true, data == last);
        }
        Item {
            place,
            code_point: object.code_point,
            data,
            consumed,
            in_work,
        }
    }

    /// In words, with a number at the place.
    pub fn words(&self, at: usize) -> Words {
        let data_at = match self.in_work {
            true => 0,
            false => self.place + self.consumed - self.data.len(),
        };
        let numbers = [
            self.code_point as usize,
            self.in_work as usize,
            data_at,
            self.data.len(),
            self.consumed,
        ];
        let mut words = done(&numbers.map(|n| n as u64));
        words[1] = at as u64;
        words
    }

    pub fn next(&self) -> usize {
        self.place + self.consumed
    }

    /// What it lays into the work area.
    pub fn work(&self) -> &[u8] {
        match self.in_work {
            true => &self.data,
            false => &[],
        }
    }
}

/// The object at a place of a run, or every refusal but 9.
pub type Found = Result<Item, Words>;

pub fn object(tally: &mut Tally, run: &[u8], at: usize) -> Found {
    let Some(bytes) = run.get(at..) else {
        return Err(refused(10, at as u64, &[at as u64, run.len() as u64]));
    };
    let given = DdmObject::parse(bytes);
    if let Some(large) = too_large(bytes) {
        let rust = match &given {
            Ok((_, consumed)) => done(&[*consumed as u64]),
            Err(error) => of_error(error, at),
        };
        let astray = large_object(bytes, at, &large);
        tally.own(
            "an object whose length loses bits",
            shown(run),
            astray,
            rust,
        );
        return Err(refused(8, at as u64, &[large.header as u64]));
    }
    match given {
        Ok((DdmObject { code_point, data }, consumed)) => {
            let object = DdmParam { code_point, data };
            Ok(Item::new(tally, run, at, object, consumed))
        }
        Err(error) => Err(of_error(&error, at)),
    }
}

/// What the Rust makes of it by the bits that are left.
fn large_object(bytes: &[u8], at: usize, large: &TooLarge) -> Words {
    let (length, header) = (large.wrapped as u64, large.header as u64);
    if length < header {
        let code_point = raw_length(&bytes[2..]) as u64;
        return refused(5, at as u64, &[length, header, code_point]);
    }
    if (bytes.len() as u64) < length {
        return refused(4, at as u64, &[length, bytes.len() as u64]);
    }
    done(&[length])
}

/// All objects, or the refusal of one of them: the Rust's own `parse` one behind the other, and its `parse_ddm_objects`.
pub fn objects(tally: &mut Tally, run: &[u8]) -> Result<Vec<Item>, Words> {
    let mut items: Vec<Item> = Vec::new();
    let mut at = 0;
    let walked = loop {
        if run.len() - at < 4 {
            break Ok(items);
        }
        match object(tally, run, at) {
            Ok(item) => {
                at = item.next();
                items.push(item);
            }
            Err(refusal) => break Err(refusal),
        }
    };
    let rust = match parse_ddm_objects(run) {
        Ok(list) => Ok(list
            .into_iter()
            .map(|o| (o.code_point, Bytes(o.data)))
            .collect()),
        Err(error) => Err(of_error(&error, at)),
    };
    let paper = match &walked {
        Ok(items) => Ok(items
            .iter()
            .map(|i| (i.code_point, Bytes(i.data.clone())))
            .collect()),
        Err(refusal) => Err(*refusal),
    };
    if matches!(walked, Err(refusal) if refusal[0] == 8) {
        tally.own(
            "objects of which one loses bits",
            shown(run),
            true,
            paper != rust,
        );
    } else {
        tally.own::<Result<Vec<_>, Words>>("parse_ddm_objects, parse", shown(run), paper, rust);
    }
    walked
}
