//! Cases about real dates (02 No. 3): whole visits and defaults that are not real (op 5); single events (op 6) and pictures
//! (op 4) on sheets and in visits whose dates may not be real. Each case has random numbers of its own.

use crate::{drawn, hex, low_first, token, Cases, Shape, FILL};
use reference::calls::{event, open};
use reference::fields::{DAY, MONTH, YEAR};
use reference::generator::dates::*;
use reference::generator::flaws::{dates, unreal_default, Material};
use reference::image::{Component, Menu};
use reference::keys::*;
use reference::layout::{session_to_bytes, LAYOUT};
use reference::random::Random;
use reference::session::{Mode, Visit, LONGEST_IDLE};
use reference::walk::check;
use reference::Session;

const DRAW: u8 = 4;
const STEP: u8 = 6;

/// How many cases about dates there are.
pub const DATES: u64 = 100;

/// No sheet is longer: a case prints its own.
const MOST_SHEET: usize = 64;

/// Years on both sides of the leap rule.
const LONG_YEARS: [i64; 16] = [0, 1, 4, 100, 200, 400, 1600, 1900, 2000, 2023, 2024, 2100, 2400, 9900, 9996, 9999];
const SHORT_YEARS: [i64; 4] = [0, 1, 4, 99];

/// Keys with their weights. ENTER is not among those on a real day: it finishes the visit, and what a session's bytes then keep
/// of it the papers do not say.
const KEYS_ON_A_REAL_DAY: [(usize, usize); 5] = [(50, UP), (25, DOWN), (5, LEFT), (5, SECOND), (5, 9)];
const KEYS_PAST_THE_END: [(usize, usize); 5] = [(30, ENTER), (30, UP), (30, DOWN), (10, SECOND), (10, LAST_EVENT + 1)];
const KEYS_BEFORE_THE_DAY: [(usize, usize); 5] = [(60, ENTER), (15, UP), (15, DOWN), (5, RIGHT), (5, SECOND)];

impl Cases {
    /// Case number `number`: first those of a table, then the others by turns.
    pub fn add_date(&mut self, mut random: Random, number: u64) {
        let random = &mut random;
        let name = |about: &str| format!("date-{about}-{number}");
        if let Some(&(long, date, part, key)) = month_ends().get(number as usize) {
            return self.add_event(&Scene::visiting(random, part, long, date), &name("end"), key);
        }
        let before = *random.pick(&[YEAR, MONTH, MONTH]);
        let any_part = *random.pick(&[YEAR, MONTH, DAY]);
        match number % 10 {
            0..=2 => self.add_visits(random, &name("visits")),
            3 => self.add_opening(random, &name("opening")),
            4 => self.add_picture(&Scene::lent(random), &name("shown")),
            5 => self.add_bad_default(random, &name("default")),
            6 => self.add_step(random, &name("past-the-end"), DAY, unreal_date, &KEYS_PAST_THE_END),
            7 => self.add_step(random, &name("day"), DAY, real_edge, &KEYS_ON_A_REAL_DAY),
            8 => self.add_step(random, &name("before-the-day"), before, unreal_date, &KEYS_BEFORE_THE_DAY),
            _ => self.add_picture(&Scene::visiting_any(random, any_part, unreal_date), &name("visited")),
        }
    }

    /// Visits of a line's dates, part by part, the first from a day that some months lack; half of the lists end within one.
    fn add_visits(&mut self, random: &mut Random, name: &str) {
        let mut scene = Scene::late(random);
        let mut keys = vec![DOWN; scene.session.here().cursor];
        for _ in 0..random.within(2, 5) {
            let next = visit_keys(random, &scene.menu(), &scene.session, &scene.sheet).unwrap_or(vec![ENTER]);
            scene.play(&next);
            keys.extend(next);
        }
        if random.chance(50) {
            keys.truncate(keys.len() - random.below(5));
        }
        let events: Vec<u8> = keys.into_iter().map(|key| key as u8).collect();
        self.add_play(name, &scene.image, &mut vec![FILL; scene.sheet.len()], &scene.shape(), &events);
    }

    fn add_bad_default(&mut self, random: &mut Random, name: &str) {
        let material = short(random, unreal_default);
        self.add_play(name, &material.image, &mut vec![FILL; material.sheet.len()], &Shape::legal(random), &[ENTER as u8]);
    }

    /// One key in the visit of a date.
    fn add_step(&mut self, random: &mut Random, name: &str, part: usize, any: AnyDate, keys: &[(usize, usize)]) {
        let scene = Scene::visiting_any(random, part, any);
        self.add_event(&scene, name, random.weighted(keys));
    }

    /// ENTER on a line with a date in it: the visit starts from the sheet's, or from the default.
    fn add_opening(&mut self, random: &mut Random, name: &str) {
        self.add_event(&Scene::lent(random), name, ENTER);
    }

    fn add_event(&mut self, scene: &Scene, name: &str, key: usize) {
        let mut sheet = scene.sheet.clone();
        let (next, answer) = event(&scene.image, &mut sheet, &scene.session, key);
        let answer = [token(&answer), hex(&sheet), hex(&session_to_bytes(&LAYOUT, &next))].join(" ");
        self.add(STEP, name, &scene.image, [sheet.len(), 0, 0], &scene.tail(key), &answer);
    }

    fn add_picture(&mut self, scene: &Scene, name: &str) {
        let shape = scene.shape();
        let answer = drawn(&scene.image, &scene.sheet, &scene.session, &shape);
        let tail = scene.tail(shape.columns * shape.lines);
        self.add(DRAW, name, &scene.image, [scene.sheet.len(), 0, 0], &tail, &answer);
    }
}

/// Whether the year is long, a date, its part and a key: UP from 28 February tells leap years, ENTER on the 31st a month's end.
fn month_ends() -> Vec<(bool, Date, usize, usize)> {
    let long = LONG_YEARS.map(|year| (true, [year, 2, 28], DAY, UP));
    let short = SHORT_YEARS.map(|year| (false, [year, 2, 28], DAY, UP));
    let months = (1..=12).map(|month| (month % 3 == 0, [23, month, 31], MONTH, ENTER));
    long.into_iter().chain(short).chain(months).collect()
}

/// Makes a date for a long or a short year.
type AnyDate = fn(&mut Random, bool) -> Date;

fn real_edge(random: &mut Random, long: bool) -> Date {
    lowered(long, edge_date(random, long))
}

/// A material of this sort whose sheet is short.
fn short(random: &mut Random, any: fn(&mut Random) -> Material) -> Material {
    loop {
        let material = any(random);
        if material.sheet.len() <= MOST_SHEET {
            return material;
        }
    }
}

/// A menu of dates, its sheet, and a session at a line with an editable date.
struct Scene {
    image: Vec<u8>,
    sheet: Vec<u8>,
    session: Session,
}

impl Scene {
    /// As Open and some DOWN leave it.
    fn opened(random: &mut Random) -> Scene {
        loop {
            let Material { image, sheet } = short(random, dates);
            let mut sheet = vec![FILL; sheet.len()];
            let shape = Shape::legal(random);
            let (_, session) = open(&image, &mut sheet, shape.columns, shape.lines);
            let mut scene = Scene { image, sheet, session };
            scene.play(&vec![DOWN; random.below(3)]);
            if !scene.dates().is_empty() {
                return scene;
            }
        }
    }

    /// The same where ENTER opens a date after the 28th.
    fn late(random: &mut Random) -> Scene {
        loop {
            let scene = Scene::opened(random);
            let menu = scene.menu();
            let first = scene.session.cursor_line(&menu).editables().next().and_then(Component::field);
            if first.is_some_and(|field| field.starting_cells(&scene.sheet)[DAY] > 28) {
                return scene;
            }
        }
    }

    /// As it is opened, with other dates in the sheet, real or not.
    fn lent(random: &mut Random) -> Scene {
        let mut scene = Scene::opened(random);
        put_dates(random, &scene.menu(), &mut scene.sheet);
        scene.session.idle = random.below(LONGEST_IDLE + 1);
        scene
    }

    /// The same in the visit of a date, in this part.
    fn visiting(random: &mut Random, part: usize, long: bool, date: Date) -> Scene {
        loop {
            let mut scene = Scene::lent(random);
            if let Some((place, _)) = scene.dates().into_iter().find(|(_, other)| *other == long) {
                scene.session.mode = Mode::Visit(Visit::opened(place, &date).choosing(part));
                return scene;
            }
        }
    }

    fn visiting_any(random: &mut Random, part: usize, any: AnyDate) -> Scene {
        let long = random.chance(50);
        let date = any(random, long);
        Scene::visiting(random, part, long, date)
    }

    fn menu(&self) -> Menu {
        check(&self.image, self.sheet.len()).expect("a good menu")
    }

    /// The editable dates of the cursor line.
    fn dates(&self) -> Vec<(usize, bool)> {
        editable_dates(self.session.cursor_line(&self.menu()))
    }

    fn shape(&self) -> Shape {
        Shape { columns: self.session.columns, lines: self.session.lines }
    }

    fn play(&mut self, keys: &[usize]) {
        for &key in keys {
            self.session = event(&self.image, &mut self.sheet, &self.session, key).0;
        }
    }

    /// What follows the image: sheet, event or length of the picture, session.
    fn tail(&self, number: usize) -> Vec<u8> {
        [&self.sheet, &low_first(&[number as u16])[..], &session_to_bytes(&LAYOUT, &self.session)].concat()
    }
}
