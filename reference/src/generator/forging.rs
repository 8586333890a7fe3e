//! Forged sessions: the current one with something changed or with the visit of a date, its bytes with some changed, or any bytes
//! at all.

use super::dates::{edge_date, editable_dates};
use crate::fields::{DAY, MONTH, MOST_CELLS, YEAR};
use crate::image::{Line, Menu};
use crate::layout::{session_to_bytes, LAYOUT};
use crate::random::Random;
use crate::session::{Mode, Session, Visit};

/// The bytes of a session that no call returned; the visit of a date in half of the cases where one can be.
pub fn forged(random: &mut Random, session: &Session, menu: Option<&Menu>) -> Vec<u8> {
    let line = menu.filter(|menu| session.fits(menu)).map(|menu| session.cursor_line(menu));
    match line.and_then(|line| date_visit(random, line)) {
        Some(mode) if random.chance(50) => session_to_bytes(&LAYOUT, &Session { mode, ..session.clone() }),
        _ => changed(random, session, menu),
    }
}

fn changed(random: &mut Random, session: &Session, menu: Option<&Menu>) -> Vec<u8> {
    let mut other = session.clone();
    let mut bytes = match random.below(10) {
        0 => return random.bytes(LAYOUT.bytes),
        1..=6 => {
            for _ in 0..random.within(1, 2) {
                change(random, &mut other, menu);
            }
            return session_to_bytes(&LAYOUT, &other);
        }
        _ => session_to_bytes(&LAYOUT, session),
    };
    for _ in 0..random.within(1, 3) {
        let at = random.below(bytes.len());
        bytes[at] = *random.pick(&[0, 1, bytes[at].wrapping_add(1), bytes[at].wrapping_sub(1), 0xFF]);
    }
    bytes
}

fn change(random: &mut Random, session: &mut Session, menu: Option<&Menu>) {
    match random.below(10) {
        0 => session.columns = random.within(13, 21) as usize,
        1 => session.lines = random.within(1, 5) as usize,
        2 => session.idle = *random.pick(&[0, 1, 4, 254, 255, 256]),
        3 | 4 => change_level(random, session),
        5 => change_depth(random, session),
        _ => change_mode(random, session, menu),
    }
}

fn change_level(random: &mut Random, session: &mut Session) {
    if session.levels.is_empty() {
        return;
    }
    let which = random.below(session.levels.len());
    let level = &mut session.levels[which];
    let number = match random.below(5) {
        0 => &mut level.table,
        1 | 2 => &mut level.cursor,
        _ => &mut level.first,
    };
    *number = if random.chance(50) { *number + 1 } else { number.saturating_sub(1) };
}

fn change_depth(random: &mut Random, session: &mut Session) {
    let last = session.levels.last().cloned();
    match last {
        Some(level) if random.chance(50) && session.levels.len() < 8 => session.levels.push(level),
        _ => {
            session.levels.pop();
        }
    }
}

/// Another mode, or the same with other cells or digits.
fn change_mode(random: &mut Random, session: &mut Session, menu: Option<&Menu>) {
    let line = menu.filter(|menu| session.fits(menu)).map(|menu| session.cursor_line(menu));
    session.mode = match random.below(5) {
        0 => Mode::Browsing,
        1 | 2 => any_password(random),
        _ => any_visit(random, line),
    };
}

/// Up to eight typed digits, seldom one that is none.
fn any_password(random: &mut Random) -> Mode {
    let typed = random.below(4) + random.below(2) * random.below(5);
    let most = if random.once_in(5) { 11 } else { 9 };
    Mode::Password((0..typed).map(|_| random.within(0, most) as u8).collect())
}

/// A visit to a component of the line, with cells that are legal at times.
fn any_visit(random: &mut Random, line: Option<&Line>) -> Mode {
    let Some(line) = line else { return Mode::Browsing };
    let component = random.pick(&line.components);
    let bounds = component.field().map_or(vec![], |field| field.kind.cell_bounds());
    let chosen = random.below(bounds.len() + 2);
    let outside = random.chance(30);
    let mut cells = [0; MOST_CELLS];
    for (cell, bound) in cells.iter_mut().zip(&bounds) {
        *cell = random.edgy(*bound.start(), *bound.end());
    }
    if outside && !bounds.is_empty() {
        let which = random.below(bounds.len().min(MOST_CELLS));
        cells[which] = *random.pick(&[bounds[which].start() - 1, bounds[which].end() + 1]);
    }
    Mode::Visit(Visit { place: component.place, chosen, cells })
}

/// A visit to an editable date of the line, if there is one, in any of its parts; its day is past the month's end at times.
fn date_visit(random: &mut Random, line: &Line) -> Option<Mode> {
    let dates = editable_dates(line);
    let &(place, long) = dates.get(random.below(dates.len().max(1)))?;
    let chosen = *random.pick(&[YEAR, MONTH, DAY, DAY]);
    Some(Mode::Visit(Visit::opened(place, &edge_date(random, long)).choosing(chosen)))
}
