//! Dates at the edges of the calendar (02 No. 3): real ones for defaults, ones past their month's end, sheets that hold both, and
//! the keys of a visit through its parts.

use crate::fields::{Kind, Value, DAY, MONTH, YEAR};
use crate::image::{Component, Line, Menu};
use crate::keys::*;
use crate::random::Random;
use crate::session::{Mode, Session};

/// Year, month, day.
pub type Date = [i64; 3];

/// The ends, leap years, years beside them, and hundreds of both sorts.
const LONG_YEARS: [i64; 16] = [0, 0, 1, 4, 100, 400, 1900, 1900, 2000, 2000, 2023, 2024, 2100, 2400, 9996, 9999];
const SHORT_YEARS: [i64; 8] = [0, 0, 1, 4, 23, 24, 96, 99];

/// February mostly, and the other months that end before the 31st.
const SHORTER_MONTHS: [i64; 8] = [2, 2, 2, 2, 4, 6, 9, 11];
const LONGER_MONTHS: [i64; 7] = [1, 3, 5, 7, 8, 10, 12];
const LAST_DAYS: [i64; 7] = [28, 29, 29, 30, 30, 31, 31];

/// The highest day of any month.
const HIGHEST_DAY: i64 = 31;

/// A real date: half of them as drawn part by part, the others at the edges. Those have random numbers of their own, so that what
/// is drawn behind a date does not depend on it.
pub fn real_date(random: &mut Random, long: bool) -> Date {
    let [day, month, year] = [(1, HIGHEST_DAY), (1, 12), (0, last_year(long))].map(|(low, high)| random.edgy(low, high));
    let mut own = Random::new((512 * year + 32 * month + day) as u64);
    let date = match own.below(4) {
        0 => edge_date(&mut own, long),
        1 => [any_year(&mut own, long), *own.pick(&LONGER_MONTHS), HIGHEST_DAY], // a step away from a month without that day
        _ => [year, month, day],
    };
    lowered(long, date)
}

/// A date near its month's end, real or not.
pub fn edge_date(random: &mut Random, long: bool) -> Date {
    let any_day = random.edgy(1, HIGHEST_DAY);
    let any_month = random.within(1, 12);
    let shorter = *random.pick(&SHORTER_MONTHS);
    let last = *random.pick(&LAST_DAYS);
    let month = random.weighted(&[(50, shorter), (50, any_month)]);
    let day = random.weighted(&[(80, last), (20, any_day)]);
    [any_year(random, long), month, day]
}

/// A date with a day past its month's end.
pub fn unreal_date(random: &mut Random, long: bool) -> Date {
    let month = *random.pick(&SHORTER_MONTHS);
    let date = [any_year(random, long), month, HIGHEST_DAY];
    let end = lowered(long, date)[DAY];
    [date[YEAR], date[MONTH], random.within(end + 1, HIGHEST_DAY)]
}

fn last_year(long: bool) -> i64 {
    if long {
        9999
    } else {
        99
    }
}

fn any_year(random: &mut Random, long: bool) -> i64 {
    let years = if long { &LONG_YEARS[..] } else { &SHORT_YEARS };
    let any = random.within(0, last_year(long));
    let edge = *random.pick(years);
    random.weighted(&[(75, edge), (25, any)])
}

/// The same with a day past the month's end lowered to it.
pub fn lowered(long: bool, [year, month, day]: Date) -> Date {
    let end = Kind::Date { long }.last_day(&[year, month, day]).expect("a date");
    [year, month, day.min(end)]
}

/// Writes dates that are real or not to most of the sheet's dates.
pub fn put_dates(random: &mut Random, menu: &Menu, sheet: &mut [u8]) {
    for (_, field) in menu.fields() {
        if let (Kind::Date { long }, true) = (&field.kind, field.sheet_bytes().end <= sheet.len()) {
            let date = if random.chance(40) { unreal_date(random, *long) } else { edge_date(random, *long) };
            if random.chance(80) {
                field.write(sheet, &field.kind.store(&date));
            }
        }
    }
}

/// The editable dates of a line: each its place in the image, and whether its year is long.
pub fn editable_dates(line: &Line) -> Vec<(usize, bool)> {
    let date = |component: &Component| match component.field()?.kind {
        Kind::Date { long } => Some((component.place, long)),
        _ => None,
    };
    line.editables().filter_map(date).collect()
}

/// Keys through the parts of the date that is ahead: some steps in each, in the month often to a shorter one, then ENTER; seldom
/// another key.
pub fn visit_keys(random: &mut Random, menu: &Menu, session: &Session, sheet: &[u8]) -> Option<Vec<usize>> {
    let (opening, date) = date_ahead(menu, session, sheet)?;
    let mut keys = vec![ENTER; opening];
    for part in [YEAR, MONTH, DAY] {
        let steps = if part == MONTH && random.chance(60) { to_shorter_month(random, date[MONTH]) } else { any_steps(random) };
        keys.extend(steps);
        if random.once_in(12) {
            keys.push(random.below(LAST_EVENT + 1));
        }
        keys.push(ENTER);
    }
    Some(keys)
}

/// The date whose visit is open in its first part, or whose visit ENTER opens; with how many ENTERs it still takes.
fn date_ahead(menu: &Menu, session: &Session, sheet: &[u8]) -> Option<(usize, Value)> {
    let line = session.cursor_line(menu);
    let (opening, field, date) = match &session.mode {
        Mode::Browsing => {
            let field = line.editables().next()?.field()?;
            (1, field, field.starting_cells(sheet))
        }
        Mode::Visit(visit) if visit.chosen == YEAR => {
            let (_, field) = visit.component(line)?;
            (0, field, visit.cells_of(&field.kind).to_vec())
        }
        _ => return None,
    };
    matches!(field.kind, Kind::Date { .. }).then_some((opening, date))
}

fn to_shorter_month(random: &mut Random, from: i64) -> Vec<usize> {
    let distance = random.pick(&SHORTER_MONTHS) - from;
    vec![if distance > 0 { UP } else { DOWN }; distance.unsigned_abs() as usize]
}

/// UP more often than DOWN, for a month's end is met that way.
fn any_steps(random: &mut Random) -> Vec<usize> {
    let step = random.weighted(&[(60, UP), (40, DOWN)]);
    let times = random.weighted(&[(25, 0), (45, 1), (15, 2), (10, 4), (5, 12)]);
    vec![step; times]
}
