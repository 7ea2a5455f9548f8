//! Lists of objects and parameters: the port's rows of records, its steps from one to the next, and finding.
use super::case::{input, Held};
use super::objects::{self, Item};
use super::params::{self, Params};
use crate::answers::{answered, done, refused, Words};
use crate::port;
use crate::rows::OBJECT_WORDS;
use crate::{shown, Tally};

impl Held {
    /// All objects.
    pub fn hold_objects(&mut self, tally: &mut Tally, run: &[u8]) {
        let listed = objects::objects(tally, run);
        let listed = listed.as_deref().map_err(|refusal| *refusal);
        self.hold_list(tally, "objects", run, listed, port::objects);
    }

    /// All parameters, each step from one to the next, and finding: each code point that is there, and others.
    pub fn hold_parameters(&mut self, tally: &mut Tally, data: &[u8]) {
        let params = params::parameters(tally, data);
        self.hold_list(
            tally,
            "parameters",
            data,
            Ok(&params.items),
            port::parameters,
        );
        let mut end = 0;
        for item in &params.items {
            self.hold_step(tally, data, end, item.words(item.next()));
            end = item.next();
        }
        self.hold_step(tally, data, end, refused(11, end as u64, &[]));
        let mut code_points: Vec<u16> = params.items.iter().map(|i| i.code_point).collect();
        code_points.sort();
        code_points.dedup();
        code_points.truncate(8);
        code_points.extend(params.items.last().map(|i| i.code_point));
        code_points.extend([0x2412 + data.len() as u16 % 3, 0xFFFF]);
        for code_point in code_points {
            self.hold_find(tally, data, &params, code_point);
        }
    }

    fn hold_step(&mut self, tally: &mut Tally, data: &[u8], at: usize, words: Words) {
        let rust = self.answer(words);
        let port = self.look(data, |data, words| port::param_step(data, at, words));
        tally.answer("param_step", &input(data, at), port, rust);
    }

    /// A step at a place that need not be a parameter's.
    pub fn hold_step_at(&mut self, tally: &mut Tally, data: &[u8], at: usize) {
        let words = params::step(tally, data, at);
        self.hold_step(tally, data, at, words);
    }

    fn hold_find(&mut self, tally: &mut Tally, data: &[u8], params: &Params, code_point: u16) {
        let first = |item: &&Item| item.code_point == code_point;
        let found = params.items.iter().find(first);
        let rust = params.sound.find_param(code_point).map(|param| param.data);
        let same = rust.as_ref() == found.map(|item| &item.data);
        tally.own("find_param, the first", shown(data), true, same);
        let found = match found {
            None => Err(refused(11, 0, &[])),
            Some(item) => Ok(item.clone()),
        };
        self.hold_found(tally, "find_param", data, 0, &found, |data, work, words| {
            port::find_param(data, code_point, work, words)
        });
    }

    /// A list: in a work area and a row that are just enough, and in turn with one of them short by one, both longer, none.
    fn hold_list(
        &mut self,
        tally: &mut Tally,
        what: &str,
        data: &[u8],
        listed: Result<&[Item], Words>,
        call: fn(&[u8], &mut [u8], &mut [u64], &mut [u64]) -> u8,
    ) {
        let items = listed.unwrap_or(&[]);
        let work: Vec<u8> = items.iter().flat_map(|i| i.work()).copied().collect();
        let row: Vec<u64> = items.iter().flat_map(|i| i.words(0)).collect();
        let turn = self.turn();
        let other = match turn % 5 {
            0 => (0, 0),
            1 => (work.len() + turn % 9, row.len() + 1 + turn % 31),
            2 => (
                work.len().saturating_sub(1),
                row.len() + turn % OBJECT_WORDS,
            ),
            _ => (work.len() + turn % 2, row.len().saturating_sub(1)),
        };
        for (bytes, elements) in [(work.len(), row.len()), other] {
            let (need, count) = (work.len() as u64, items.len() as u64);
            let rust = match listed {
                Err(refusal) => self.answer(refusal),
                Ok(_) if bytes < work.len() || elements / OBJECT_WORDS < items.len() => {
                    self.answer(refused(9, 0, &[need, count]))
                }
                Ok(_) => self
                    .answer(done(&[count, need]))
                    .laying(&work)
                    .listing(&row),
            };
            let lent_row = self.row.lend(elements);
            let lent = self.run.lend_copy(data);
            let lent_work = self.room.lend(bytes);
            let port = answered(&mut self.words, self.lent_words, |words| {
                call(lent, lent_work, lent_row, words)
            });
            let port = port
                .with_room(&self.room, 0, rust.bytes_laid())
                .with_row(&self.row, rust.words_listed())
                .with_run(&self.run, data);
            tally.answer(what, &input(data, elements), port, rust);
        }
    }
}
