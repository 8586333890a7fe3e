//! One sitting: an image, an opening, and a list of steps, chosen so that most of them do something. It looks at the reference's
//! session to choose; whatever else plays the same steps is compared with the reference.

use super::dates::{put_dates, visit_keys};
use super::flaws::{contents, damaged, dates, flawed, flawed_and_damaged, good, junk, Material};
use super::forging::forged;
use super::marking::{answered, any_key};
use super::replaying::Replays;
use super::watching::Watch;
use crate::fields::Kind;
use crate::image::Menu;
use crate::keys::*;
use crate::marker::SUMS;
use crate::random::Random;
use crate::session::{Mode, Session, Visit, COLUMNS, LINES};
use crate::vectors::{Reference, Step};
use crate::walk::check;
use std::collections::VecDeque;

/// What the steps of sittings are made of.
#[derive(Clone, Copy)]
pub struct Plan {
    /// Whether sessions are forged.
    pub forging: bool,
    pub least_actions: usize,
    pub most_actions: usize,
    /// In how many of a thousand actions another image is lent.
    pub other_images: usize,
    /// Whether columns, lines and events may be numbers that no byte holds, sums other than three, a session's bytes others than
    /// its own, and lists of events at the limit.
    pub wide: bool,
    /// Whether sheets are marked: now and then, and at the end.
    pub marking: bool,
    /// Whether the sitting is recorded and played again: now and then, and at the end.
    pub recording: bool,
    /// Whether dates are at times visited part by part to their end.
    pub dates: bool,
}

pub struct Sitting {
    random: Random,
    plan: Plan,
    material: Material,
    waiting: VecDeque<Step>,
    /// How many more actions there are.
    left: usize,
    /// Whether the sheet is still to be marked as the actions left it.
    is_to_mark: bool,
    /// Whether the sitting is still to be recorded.
    is_to_record: bool,
    watch: Watch,
    menu: Option<Menu>,
    menu_is_known: bool,
}

impl Sitting {
    /// Sitting number `number` of the run with this seed.
    pub fn new(seed: u64, number: u64, plan: Plan) -> Sitting {
        let mut random = Random::of_sitting(seed, number);
        let material = material(&mut random);
        Sitting::on(random, plan, material)
    }

    /// A sitting on this image and sheet.
    pub fn on(mut random: Random, plan: Plan, material: Material) -> Sitting {
        let (columns, lines) = shape(&mut random, plan.wide);
        let mut waiting = VecDeque::from([Step::Image(material.image.clone()), Step::Sheet(material.sheet.clone())]);
        if random.once_in(15) {
            // the closed session: 12 where the image is good
            waiting.push_back(Step::Event(random.below(LAST_EVENT + 2)));
            waiting.push_back(Step::Draw(random.below(2)));
        }
        waiting.push_back(Step::Open { columns, lines });
        let left = random.edgy(plan.least_actions as i64, plan.most_actions as i64) as usize;
        let (is_to_mark, is_to_record) = (plan.marking, plan.recording);
        let watch = Watch::default();
        Sitting { random, plan, material, waiting, left, is_to_mark, is_to_record, watch, menu: None, menu_is_known: false }
    }

    /// How often what was sat was played again; that it gave the same is asserted.
    pub fn replayed(&self) -> usize {
        self.watch.replayed
    }

    /// The next step, by what the steps before made of the reference.
    pub fn next(&mut self, reference: &Reference) -> Option<Step> {
        if self.plan.recording {
            self.watch.after(reference);
        }
        if self.waiting.is_empty() {
            self.go_on(reference);
        }
        let step = self.waiting.pop_front()?;
        if matches!(step, Step::Image(_) | Step::Sheet(_)) {
            self.menu_is_known = false;
        }
        if self.plan.recording {
            self.watch.before(&step, reference);
        }
        Some(step)
    }

    /// Acts, or marks the sheet as the last action left it, or records what was sat.
    fn go_on(&mut self, reference: &Reference) {
        if self.left > 0 {
            self.left -= 1;
            self.act(reference);
        } else if self.is_to_mark {
            self.is_to_mark = false;
            self.last_marks(reference);
        } else if self.is_to_record {
            self.is_to_record = false;
            self.last_records(reference);
        }
    }

    /// Chooses one or more steps.
    fn act(&mut self, reference: &Reference) {
        if !self.menu_is_known {
            self.menu = check(&reference.image, reference.sheet.len()).ok();
            self.menu_is_known = true;
            if self.menu.is_none() {
                self.left = self.left.min(3);
            }
        }
        let fits = self.menu.as_ref().is_some_and(|menu| reference.session.fits(menu));
        if self.random.below(1000) < self.plan.other_images {
            return self.other_image(reference);
        }
        if self.plan.marking && self.random.once_in(25) {
            return self.mark(&reference.image, &reference.sheet);
        }
        if self.plan.recording && self.random.once_in(40) {
            return self.records(reference);
        }
        if self.plan.dates && fits && self.random.once_in(6) && self.visit_date(reference) {
            return;
        }
        match self.random.below(1000) {
            0..=599 if self.menu.is_some() && !fits => {
                let (columns, lines) = shape(&mut self.random, self.plan.wide);
                self.waiting.push_back(Step::Open { columns, lines });
            }
            0..=749 => self.events(reference),
            750..=909 => self.draw(reference),
            910..=959 => self.text(reference),
            960..=974 => self.other_sheet(reference),
            975.. if self.plan.forging => {
                let bytes = forged(&mut self.random, &reference.session, self.menu.as_ref());
                self.waiting.push_back(Step::Session(bytes));
                self.draw(reference);
            }
            _ => self.draw(reference),
        }
    }

    /// Goes through the parts of the date that is ahead; false where none is.
    fn visit_date(&mut self, reference: &Reference) -> bool {
        let Some(menu) = &self.menu else { return false };
        let keys = visit_keys(&mut self.random, menu, &reference.session, &reference.sheet);
        self.waiting.extend(keys.iter().flatten().copied().map(Step::Event));
        keys.is_some()
    }

    /// One event, at times several of the same.
    fn events(&mut self, reference: &Reference) {
        let event = self.event(&reference.session);
        let times = match self.random.below(20) {
            _ if self.menu.is_none() => 1,
            0..=15 => 1,
            16..=18 => self.random.within(2, 6) as usize,
            _ if event == SECOND && self.random.once_in(8) => 260,
            _ => self.random.within(5, 15) as usize,
        };
        self.waiting.extend(vec![Step::Event(event); times]);
    }

    fn event(&mut self, session: &Session) -> usize {
        if self.random.once_in(60) {
            if self.plan.wide && self.random.once_in(2) {
                let low = self.random.below(LAST_EVENT + 2);
                return widened(&mut self.random, low);
            }
            return self.random.within(LAST_EVENT as i64 + 1, 255) as usize;
        }
        if self.random.once_in(12) {
            return self.random.below(LAST_EVENT + 1);
        }
        match &self.menu {
            Some(menu) if session.fits(menu) => match &session.mode {
                Mode::Browsing => browsing_event(&mut self.random, menu, session),
                Mode::Visit(visit) => visit_event(&mut self.random, menu, session, visit),
                Mode::Password(typed) => password_event(&mut self.random, &self.material.image, menu, session, typed.len()),
            },
            _ => self.random.below(LAST_EVENT + 1),
        }
    }

    fn draw(&mut self, reference: &Reference) {
        let length = reference.session.columns * reference.session.lines;
        let length = match self.random.below(40) {
            0 => length + 1,
            1 => length.saturating_sub(1),
            2 => self.random.below(100),
            _ => length,
        };
        self.waiting.push_back(Step::Draw(length.min(500)));
    }

    /// An item of an option mostly, else any place.
    fn text(&mut self, reference: &Reference) {
        let fields = self.menu.as_ref().map_or(vec![], Menu::fields);
        let options: Vec<(usize, usize)> = fields
            .iter()
            .map(|(place, field)| match &field.kind {
                Kind::Option { items } => (*place, items.len()),
                _ => (*place, 0),
            })
            .filter(|(_, items)| *items > 0 || self.random.once_in(12))
            .collect();
        if options.is_empty() && self.random.chance(80) {
            return self.draw(reference);
        }
        let (place, items) = match options.is_empty() || self.random.once_in(10) {
            true => (self.random.below(reference.image.len() + 2), 3),
            false => *self.random.pick(&options),
        };
        let item = if self.random.once_in(10) { items + self.random.below(300) } else { self.random.below(items.max(1)) };
        let (place, item) = (far(&mut self.random, place), far(&mut self.random, item));
        self.waiting.push_back(Step::Text { place, item });
    }

    /// Marks by one key or several, seldom with other than three sums lent.
    fn mark(&mut self, image: &[u8], sheet: &[u8]) {
        for _ in 0..self.random.within(1, 3) {
            let key = any_key(&mut self.random, image, sheet);
            if self.plan.wide && self.random.once_in(12) {
                let count = *self.random.pick(&[0, 1, 2, 4, 5]);
                self.waiting.extend([Step::Sums(count), Step::Mark(key), Step::Sums(SUMS)]);
            } else {
                self.waiting.push_back(Step::Mark(key));
            }
        }
    }

    /// Marks the sheet as it was left, at times also with other answers in it.
    fn last_marks(&mut self, reference: &Reference) {
        self.mark(&reference.image, &reference.sheet);
        if self.random.chance(50) {
            let sheet = answered(&mut self.random, &reference.sheet);
            self.waiting.push_back(Step::Sheet(sheet.clone()));
            self.mark(&reference.image, &sheet);
        }
    }

    /// Records what was sat so far and plays a record; the sitting goes on from there.
    fn records(&mut self, reference: &Reference) {
        let ended = self.watch.longest(reference).filter(|ended| ended.sat.image == reference.image);
        let mut replays = Replays::new(&mut self.random, self.plan.wide);
        replays.midway(reference, ended.as_ref());
        self.waiting.extend(replays.steps);
    }

    /// Records what was sat, plays it again on a fresh sheet, and plays what is damaged.
    fn last_records(&mut self, reference: &Reference) {
        let ended = self.watch.longest(reference);
        let mut replays = Replays::new(&mut self.random, self.plan.wide);
        replays.at_the_end(reference, ended.as_ref());
        self.waiting.extend(replays.steps);
    }

    /// The same length with other contents, dates among them; seldom another length.
    fn other_sheet(&mut self, reference: &Reference) {
        let length = match self.random.below(15) {
            0 => reference.sheet.len() + 1,
            1 => reference.sheet.len().saturating_sub(1),
            _ => reference.sheet.len(),
        };
        let mut sheet = contents(&mut self.random, length);
        if let Some(menu) = &self.menu {
            put_dates(&mut self.random, menu, &mut sheet);
        }
        self.waiting.push_back(Step::Sheet(sheet));
        self.draw(reference);
    }

    /// Another image under the same session: a new one, or this one with one byte changed.
    fn other_image(&mut self, reference: &Reference) {
        if self.random.chance(30) {
            self.material = material(&mut self.random);
        } else if !self.material.image.is_empty() {
            let at = self.random.below(self.material.image.len());
            self.material.image[at] = self.random.byte();
        }
        self.waiting.push_back(Step::Image(self.material.image.clone()));
        self.draw(reference);
    }
}

/// Seldom a number that is the same in its low bytes only, or the highest.
fn far(random: &mut Random, number: usize) -> usize {
    match random.below(100) {
        0 => number + 256,
        1 => number + 65_536,
        2 => usize::MAX,
        _ => number,
    }
}

/// Good images mostly.
pub fn material(random: &mut Random) -> Material {
    let refusal = random.within(2, 11) as u8;
    match random.below(100) {
        0..=69 => good(random),
        70..=79 => dates(random),
        80..=87 => damaged(random),
        88 => junk(random),
        _ if refusal == 8 && random.once_in(2) => good(random), // those are long
        89..=91 => flawed_and_damaged(random, refusal),
        _ => flawed(random, refusal),
    }
}

/// A number of 32 bits with this low byte that no byte holds.
pub fn widened(random: &mut Random, low: usize) -> usize {
    let above = *random.pick(&[1, 2, 0xFF, 0x100, 0xFF_FFFF]);
    256 * above + low
}

/// Columns and lines: legal ones mostly.
pub fn shape(random: &mut Random, wide: bool) -> (usize, usize) {
    if wide && random.once_in(40) {
        let (columns, lines) = shape(random, false);
        return match random.below(3) {
            0 => (widened(random, columns), lines),
            1 => (columns, widened(random, lines)),
            _ => (widened(random, columns), widened(random, lines)),
        };
    }
    if random.once_in(40) {
        return (random.within(12, 22) as usize, random.within(0, 6) as usize);
    }
    if random.once_in(200) {
        return (usize::from(random.byte()), usize::from(random.byte()));
    }
    let columns = random.edgy(*COLUMNS.start() as i64, *COLUMNS.end() as i64);
    (columns as usize, random.within(*LINES.start() as i64, *LINES.end() as i64) as usize)
}

fn browsing_event(random: &mut Random, menu: &Menu, session: &Session) -> usize {
    let line = session.cursor_line(menu);
    let enter = if line.editables().next().is_some() { 35 } else { 3 };
    let right = if line.submenu.is_some() { 60 } else { 3 };
    random.weighted(&[(22, DOWN), (12, UP), (5, LEFT), (right, RIGHT), (enter, ENTER), (7, SECOND), (1, POINT), (1, 5)])
}

fn visit_event(random: &mut Random, menu: &Menu, session: &Session, visit: &Visit) -> usize {
    let digit = random.below(10);
    let line = session.cursor_line(menu);
    let kind = visit.component(line).map(|(_, field)| &field.kind);
    let digits = if matches!(kind, Some(Kind::Integer(_))) { 40 } else { 3 };
    let sideways = if matches!(kind, Some(Kind::Counter(_) | Kind::Time { .. } | Kind::Date { .. })) { 2 } else { 14 };
    let upright = if matches!(kind, Some(Kind::Option { .. })) { 2 } else { 14 };
    random.weighted(&[
        (digits, digit),
        (upright, UP),
        (upright, DOWN),
        (sideways, LEFT),
        (sideways + 2, RIGHT),
        (26, ENTER),
        (2, SECOND),
        (1, POINT),
    ])
}

/// The right next digit mostly.
fn password_event(random: &mut Random, image: &[u8], menu: &Menu, session: &Session, typed: usize) -> usize {
    let any = random.below(10);
    let password = session.cursor_line(menu).submenu.as_ref().and_then(|submenu| submenu.password.clone());
    let right = password.and_then(|digits| image.get(digits.start + typed)).map_or(any, |digit| usize::from(digit & 0x0F));
    random.weighted(&[(80, right), (5, any), (7, SECOND), (2, LEFT), (1, RIGHT), (1, ENTER), (1, UP), (1, POINT)])
}
