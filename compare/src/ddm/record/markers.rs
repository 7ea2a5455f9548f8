//! Continuation markers.
use super::{found, step, whole};
use crate::answers::{done, expected, refused, ANSWER_WORDS};
use crate::ddm::lengths::headed;
use crate::ddm::markers::KINDS;
use crate::ddm::objects::object;
use crate::ddm::rust::text;
use crate::record::{counted, Asked, List};
use crate::Tally;

/// Data around the places of the first marker and of the second, with each of those bytes there and beside them.
pub fn markers(list: &mut List, tally: &mut Tally) {
    let mut turn = 0;
    for kind in KINDS {
        for places in [
            &[32_757][..],
            &[32_756],
            &[32_758],
            &[32_757, 65_523],
            &[32_757, 65_521],
            &[],
        ] {
            let last = places.last().unwrap_or(&32_757);
            for len in last - 1..=last + 5 {
                turn += 1;
                let mut data = counted(len, 17);
                for place in places {
                    let there = len.saturating_sub(*place).min(2);
                    data[*place.min(&len)..][..there].copy_from_slice(&kind[..there]);
                }
                marked(list, tally, &data, turn);
            }
        }
    }
    for len in [0, 1, 2, 40] {
        marked(list, tally, &[0x7F, 0xFE].repeat(len), turn);
    }
}

/// By themselves, and as an object of raw length 0x8004; in turn as one behind another, and as parameters.
fn marked(list: &mut List, tally: &mut Tally, data: &[u8], turn: usize) {
    let kept = text::stripped(data);
    let need = kept.len();
    for room in [need, [need.saturating_sub(1), need + 4][turn % 2]] {
        let answer = match room < need {
            true => expected(refused(9, 0, &[need as u64, 0]), ANSWER_WORDS),
            false => expected(done(&[need as u64]), ANSWER_WORDS).laying(&kept),
        };
        list.answer(Asked::new(81, &[], data).room(room), 0, &answer);
    }
    let run = headed(0x8004, 0x241B, data);
    match turn % 3 {
        0 => {
            let first = object(tally, &run, 0);
            found(list, Asked::new(82, &[0], &run), 0, &first, turn);
        }
        1 => whole(list, tally, &run, turn),
        _ => {
            let run = [&[0, 6, 0x24, 0x12, 0xC1, 0xC2], &run[..]].concat();
            whole(list, tally, &run, turn);
            step(list, tally, &run, 6, ANSWER_WORDS);
        }
    }
}
