//! Steps that record what was sat and play it: again as it was, and with something damaged.

use super::flaws::contents;
use super::recording::{any_events, any_room, flawed_record, list_length, with_bad_events};
use super::sitting::{material, shape, widened};
use super::watching::{Ended, Sat};
use crate::image::LONGEST_SHEET;
use crate::keys::LAST_EVENT;
use crate::layout::LAYOUT;
use crate::random::Random;
use crate::record::{write_record, HIGHEST_NUMBER};
use crate::vectors::{Reference, Step};

/// A short image for long records: one uchar ddd at the sheet's first byte, and the top is shown after three seconds.
const SHORT_IMAGE: &[u8] = b"CMF\x00\x04\x03\x00\x03\xFF\xFE\x01T\x00\x03\xA1\x00\x00\x00\x00\x00\x07";

pub struct Replays<'a> {
    random: &'a mut Random,
    /// As in the sitting's plan.
    wide: bool,
    pub steps: Vec<Step>,
}

impl Replays<'_> {
    pub fn new(random: &mut Random, wide: bool) -> Replays<'_> {
        Replays { random, wide, steps: vec![] }
    }

    /// One recording and one playing on the image that is lent; the sitting goes on from there.
    pub fn midway(&mut self, reference: &Reference, ended: Option<&Ended>) {
        let sat = self.sat(reference, ended);
        self.record(&sat.events);
        match self.random.below(3) {
            0 => self.play(sat.columns, sat.lines, write_record(&sat.events), sat.events.len()),
            _ => self.damaged_play(&sat),
        }
    }

    /// The sitting again on a fresh sheet, and several damaged ones.
    pub fn at_the_end(&mut self, reference: &Reference, ended: Option<&Ended>) {
        let sat = self.sat(reference, ended);
        for _ in 0..self.random.within(1, 3) {
            self.record(&sat.events);
        }
        if ended.is_some() {
            self.play_again(&sat);
        }
        for _ in 0..self.random.within(2, 5) {
            match self.random.below(10) {
                0 | 1 => self.lend_another(),
                2 => self.lend_another_sheet(&sat),
                _ => {}
            }
            self.damaged_play(&sat);
        }
        if self.wide && self.random.once_in(150) {
            self.limit();
        }
    }

    /// What was sat, or any events where nothing was.
    fn sat(&mut self, reference: &Reference, ended: Option<&Ended>) -> Sat {
        if let Some(ended) = ended {
            return ended.sat.clone();
        }
        let (columns, lines) = shape(self.random, self.wide);
        let events = any_events(self.random);
        Sat { image: reference.image.clone(), lent: reference.sheet.clone(), columns, lines, events }
    }

    fn record(&mut self, events: &[u8]) {
        let events = if self.random.once_in(6) { with_bad_events(self.random, events) } else { events.to_vec() };
        let room = any_room(self.random, &events);
        self.steps.push(Step::Record { events, room });
    }

    /// The same image, shape and events on a sheet of the same length, whatever it holds.
    fn play_again(&mut self, sat: &Sat) {
        let sheet = if self.random.chance(50) { sat.lent.clone() } else { contents(self.random, sat.lent.len()) };
        let spare = *self.random.pick(&[0, 0, 1, 5]);
        self.steps.extend([Step::Image(sat.image.clone()), Step::Sheet(sheet)]);
        self.play(sat.columns, sat.lines, write_record(&sat.events), sat.events.len() + spare);
    }

    /// Plays a record; then an event or a picture shows what session it left.
    fn play(&mut self, columns: usize, lines: usize, record: Vec<u8>, answers: usize) {
        self.steps.push(Step::Play { columns, lines, record, answers });
        match self.random.below(3) {
            0 => self.steps.push(Step::Event(self.random.below(LAST_EVENT + 1))),
            1 => self.steps.push(Step::Draw(columns.saturating_mul(lines).min(80))),
            _ => {}
        }
    }

    /// Something is wrong with the record, the list, the shape or the session's bytes, at times with several of them.
    fn damaged_play(&mut self, sat: &Sat) {
        let events = if self.random.once_in(4) { any_events(self.random) } else { sat.events.clone() };
        let record = if self.random.chance(50) { flawed_record(self.random, &events) } else { write_record(&events) };
        let answers = list_length(self.random, events.len());
        let (columns, lines) = match self.random.below(20) {
            0..=3 => shape(self.random, self.wide),
            4 => (self.random.within(12, 22) as usize, self.random.within(0, 6) as usize),
            5 if self.wide => (widened(self.random, sat.columns % 256), sat.lines),
            6 if self.wide => (sat.columns, widened(self.random, sat.lines % 256)),
            _ => (sat.columns, sat.lines),
        };
        if self.wide && self.random.once_in(8) {
            let own = LAYOUT.bytes;
            let length = *self.random.pick(&[0, 1, own - 1, own + 1, 2 * own]);
            let play = Step::Play { columns, lines, record, answers };
            self.steps.extend([Step::Buffer(length), play, Step::Buffer(own)]);
        } else {
            self.play(columns, lines, record, answers);
        }
    }

    fn lend_another(&mut self) {
        let other = material(self.random);
        self.steps.extend([Step::Image(other.image), Step::Sheet(other.sheet)]);
    }

    /// The same image with a sheet of another length.
    fn lend_another_sheet(&mut self, sat: &Sat) {
        let length = sat.lent.len();
        let length = *self.random.pick(&[length + 1, length.saturating_sub(1), 0, LONGEST_SHEET + 1]);
        let sheet = contents(self.random, length);
        self.steps.extend([Step::Image(sat.image.clone()), Step::Sheet(sheet)]);
    }

    /// As many events as a record can state, or one more or less.
    fn limit(&mut self) {
        let length = *self.random.pick(&[HIGHEST_NUMBER, HIGHEST_NUMBER, HIGHEST_NUMBER - 1, HIGHEST_NUMBER + 1]);
        let mut events: Vec<u8> = (0..length).map(|_| self.random.below(LAST_EVENT + 1) as u8).collect();
        if self.random.once_in(4) {
            events[length - 1] = LAST_EVENT as u8 + 1;
        }
        let record = write_record(&events);
        let room = any_room(self.random, &events);
        let answers = *self.random.pick(&[length, length, length + 1, length - 1]);
        self.steps.push(Step::Record { events, room });
        self.steps.extend([Step::Image(SHORT_IMAGE.to_vec()), Step::Sheet(contents(self.random, 1))]);
        self.play(20, 4, record, answers);
    }
}
