//! Watches a sitting, so that it can be recorded and played again: what was opened, which events were taken, where they led.

use crate::keys::LAST_EVENT;
use crate::layout::LAYOUT;
use crate::record::read_record;
use crate::session::Session;
use crate::vectors::{Reference, Step};
use crate::walk::check;

/// An opening and the events taken after it.
#[derive(Clone)]
pub struct Sat {
    pub image: Vec<u8>,
    /// The sheet that was lent to Open.
    pub lent: Vec<u8>,
    pub columns: usize,
    pub lines: usize,
    pub events: Vec<u8>,
}

/// The same with the sheet and the session that the events led to.
#[derive(Clone)]
pub struct Ended {
    pub sat: Sat,
    pub sheet: Vec<u8>,
    pub session: Session,
}

#[derive(Default)]
pub struct Watch {
    /// What the step handed out last opens, if it is accepted.
    asked: Option<Sat>,
    going: Option<Sat>,
    /// Of those that ended, the one with the most events.
    ended: Option<Ended>,
    /// The sheet and the session that the step handed out last must give.
    expected: Option<(Vec<u8>, Session)>,
    /// How often a sitting was played again and gave the same.
    pub replayed: usize,
}

impl Watch {
    /// Looks at a step before it is played.
    pub fn before(&mut self, step: &Step, reference: &Reference) {
        match step {
            Step::Image(_) | Step::Sheet(_) | Step::Session(_) => self.end(reference),
            Step::Open { columns, lines } => {
                self.end(reference);
                self.asked = Some(asked(reference, *columns, *lines, vec![]));
            }
            Step::Play { columns, lines, record, answers } if reference.buffer == LAYOUT.bytes => {
                self.end(reference);
                if let Some(events) = events_played(record, *answers) {
                    let sat = asked(reference, *columns, *lines, events);
                    self.expected = self.ended.as_ref().and_then(|ended| ended.again(&sat));
                    self.asked = Some(sat);
                }
            }
            Step::Event(event) if *event <= LAST_EVENT => {
                if let Some(going) = &mut self.going {
                    going.events.push(*event as u8);
                }
            }
            _ => {}
        }
    }

    /// Looks at what the step handed out last has made of the reference.
    pub fn after(&mut self, reference: &Reference) {
        let asked = self.asked.take();
        if reference.session != Session::closed() && asked.is_some() {
            self.going = asked;
        }
        if let Some((sheet, session)) = self.expected.take() {
            assert!(reference.session == session, "a sitting played again gives the same session");
            assert!(reference.sheet == sheet, "a sitting played again gives the same sheet");
            self.replayed += 1;
        }
    }

    /// The sitting with the most events so far.
    pub fn longest(&mut self, reference: &Reference) -> Option<Ended> {
        let going = self.going.clone();
        self.end(reference);
        self.going = going;
        self.ended.clone()
    }

    /// What goes on is over, with the reference as it is.
    fn end(&mut self, reference: &Reference) {
        let Some(sat) = self.going.take() else { return };
        if self.ended.as_ref().is_none_or(|ended| ended.sat.events.len() <= sat.events.len()) {
            self.ended = Some(Ended { sat, sheet: reference.sheet.clone(), session: reference.session.clone() });
        }
    }
}

/// The events of a record that is not refused for itself or its list.
fn events_played(record: &[u8], answers: usize) -> Option<Vec<u8>> {
    let events = read_record(record).ok().filter(|events| events.len() <= answers)?;
    Some(events.into_iter().map(|event| event as u8).collect())
}

fn asked(reference: &Reference, columns: usize, lines: usize, events: Vec<u8>) -> Sat {
    Sat { image: reference.image.clone(), lent: reference.sheet.clone(), columns, lines, events }
}

impl Ended {
    /// The sheet and session that the same opening and events give on another sheet: its bytes of no field stay.
    fn again(&self, other: &Sat) -> Option<(Vec<u8>, Session)> {
        let same = |one: &Sat| (one.columns, one.lines, one.lent.len());
        if self.sat.image != other.image || self.sat.events != other.events || same(&self.sat) != same(other) {
            return None;
        }
        let menu = check(&other.image, other.lent.len()).expect("the sitting was opened");
        let mut sheet = other.lent.clone();
        for (_, field) in menu.fields() {
            sheet[field.sheet_bytes()].copy_from_slice(&self.sheet[field.sheet_bytes()]);
        }
        Some((sheet, self.session.clone()))
    }
}
