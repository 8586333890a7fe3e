//! What holds in every sitting: bytes of sessions read back, a record of it gives the same, and the book of visits of 01 agrees
//! with the sheet.

use reference::fields::Field;
use reference::generator::sitting::{Plan, Sitting};
use reference::image::Menu;
use reference::keys::*;
use reference::layout::{session_from_bytes, session_to_bytes, LAYOUT};
use reference::session::{Answer, Visit};
use reference::vectors::{Executor, Outcome, Reference, Step};
use reference::walk::check;
use std::collections::BTreeMap;

const PLAN: Plan = Plan {
    forging: false,
    least_actions: 10,
    most_actions: 60,
    other_images: 0,
    wide: false,
    marking: false,
    recording: false,
    dates: true,
};

#[test]
fn session_bytes_read_back() {
    for number in 0..300 {
        let mut sitting = Sitting::new(11, number, PLAN);
        let mut reference = Reference::new();
        while let Some(step) = sitting.next(&reference) {
            reference.play(&step);
            let bytes = session_to_bytes(&LAYOUT, &reference.session);
            assert_eq!(session_from_bytes(&LAYOUT, &bytes), reference.session);
        }
    }
}

/// 02 No. 2: what was sat is recorded and played again, and gives the same sheet and session; `Watch` asserts it.
#[test]
fn sittings_played_again() {
    let mut replayed = 0;
    for number in 0..500 {
        let mut sitting = Sitting::new(31, number, Plan { recording: true, wide: true, ..PLAN });
        let mut reference = Reference::new();
        while let Some(step) = sitting.next(&reference) {
            reference.play(&step);
        }
        replayed += sitting.replayed();
    }
    assert!(replayed > 350);
}

/// 01 "The book of visits": fed the image, the events and the answers, nothing of the session.
struct Book {
    tape: Vec<(usize, Answer)>,
    bytes: BTreeMap<usize, Vec<u8>>,
}

impl Book {
    fn new(menu: &Menu) -> Book {
        let bytes = menu.fields().iter().map(|(place, field)| (*place, field.default.clone())).collect();
        Book { tape: vec![], bytes }
    }

    fn note(&mut self, menu: &Menu, event: usize, answer: Answer) {
        if event >= SECOND || matches!(answer, Answer::Refused(_)) {
            return;
        }
        self.tape.push((event, answer));
        if let Answer::Finished(place) = answer {
            let (_, field) = *menu.fields().iter().find(|(other, _)| *other == place).expect("a field's place");
            let visit = self.finished_visit(field);
            let stored = replay(place, field, &self.bytes[&place], &visit);
            self.bytes.insert(place, stored);
        }
    }

    /// The tape after the ENTER that opened the visit.
    fn finished_visit(&self, field: &Field) -> Vec<usize> {
        let parts = field.kind.bounds().len();
        let mut enters = 0;
        let mut from = self.tape.len();
        while enters < parts + 1 {
            from -= 1;
            let (key, answer) = self.tape[from];
            enters += usize::from(key == ENTER && answer != Answer::Flash);
        }
        self.tape[from + 1..].iter().map(|(key, _)| *key).collect()
    }
}

/// Turns a field's bytes into those that the visit's last ENTER stores.
fn replay(place: usize, field: &Field, bytes: &[u8], keys: &[usize]) -> Vec<u8> {
    let mut cells = [0; 32];
    let value = Some(field.kind.load(bytes)).filter(|value| field.kind.in_range(value));
    let start = field.kind.to_cells(&value.unwrap_or(field.kind.load(&field.default)));
    cells[..start.len()].copy_from_slice(&start);
    let mut visit = Visit { place, chosen: 0, cells };
    for &key in keys {
        match press(&field.kind, &visit, key) {
            Pressed::Taken(next) => visit = next,
            Pressed::Finished(stored) => return stored,
            _ => {}
        }
    }
    panic!("the last ENTER finishes the visit");
}

#[test]
fn book_of_visits() {
    let mut finished = 0;
    for number in 0..3000 {
        let mut sitting = Sitting::new(23, number, PLAN);
        let mut reference = Reference::new();
        let mut book = None;
        while let Some(step) = sitting.next(&reference) {
            if matches!(step, Step::Sheet(_)) && book.is_some() {
                break; // another sheet is not covered
            }
            let outcome = reference.play(&step);
            let menu = check(&reference.image, reference.sheet.len());
            match (&step, &outcome, menu) {
                (Step::Open { .. }, Outcome::Opened(0), Ok(menu)) => book = Some(Book::new(&menu)),
                (Step::Event(event), Outcome::Answered(answer), Ok(menu)) => {
                    finished += usize::from(matches!(answer, Answer::Finished(_)));
                    if let Some(book) = &mut book {
                        book.note(&menu, *event, *answer);
                    }
                }
                _ => {}
            }
        }
        if let (Some(book), Ok(menu)) = (book, check(&reference.image, reference.sheet.len())) {
            for (place, field) in menu.fields() {
                assert_eq!(reference.sheet[field.sheet_bytes()], book.bytes[&place][..], "sitting {number} field {place}");
            }
        }
    }
    assert!(finished > 1000);
}
