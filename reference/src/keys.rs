//! The event numbers (01 "The four calls") and what a key does to the working copy of a visit (01 "Keys").

use crate::fields::{Kind, DAY};
use crate::layout::{MINUS, PLUS};
use crate::session::Visit;

pub const POINT: usize = 10;
pub const UP: usize = 11;
pub const DOWN: usize = 12;
pub const LEFT: usize = 13;
pub const RIGHT: usize = 14;
pub const ENTER: usize = 15;
pub const SECOND: usize = 16;
pub const LAST_EVENT: usize = SECOND;

pub fn is_digit(key: usize) -> bool {
    key < POINT
}

/// What a key in a visit comes to.
pub enum Pressed {
    /// The visit goes on like this.
    Taken(Visit),
    Flash,
    /// A trigger fires and its visit stays.
    Fired,
    /// The last ENTER on a field: the sheet bytes to store.
    Finished(Vec<u8>),
    /// ENTER on a trigger.
    Passed,
}

/// A key in a visit of a field of this kind.
pub fn press(kind: &Kind, visit: &Visit, key: usize) -> Pressed {
    if key == ENTER {
        return enter(kind, visit);
    }
    let next = match kind {
        Kind::Integer(format) if format.is_sign(visit.chosen) => sign_key(kind, visit, key),
        Kind::Integer(_) => digit_cell_key(kind, visit, key),
        Kind::Counter(counter) => step_key(kind, visit, key, counter.step),
        Kind::Time { .. } | Kind::Date { .. } => step_key(kind, visit, key, 1),
        Kind::Switch { .. } => switch_key(kind, visit, key),
        Kind::Option { .. } => option_key(kind, visit, key),
        Kind::Trigger => return trigger_key(key),
    };
    next.map_or(Pressed::Flash, Pressed::Taken)
}

/// ENTER goes to the next part of a time or date; the last one stores a value in range, else flashes (R29).
fn enter(kind: &Kind, visit: &Visit) -> Pressed {
    let has_parts = matches!(kind, Kind::Time { .. } | Kind::Date { .. });
    let value = kind.value_of(visit.cells_of(kind));
    if matches!(kind, Kind::Trigger) {
        Pressed::Passed
    } else if has_parts && visit.chosen + 1 < kind.choices() {
        Pressed::Taken(next_part(kind, visit))
    } else if kind.in_range(&value) {
        Pressed::Finished(kind.store(&value))
    } else {
        Pressed::Flash
    }
}

/// R50: on the way from the month to the day, a day past the month's end is lowered to it.
fn next_part(kind: &Kind, visit: &Visit) -> Visit {
    let mut next = visit.choosing(visit.chosen + 1);
    if let (DAY, Some(end)) = (next.chosen, kind.last_day(&visit.cells)) {
        next.cells[DAY] = next.cells[DAY].min(end);
    }
    next
}

fn sign_key(kind: &Kind, visit: &Visit, key: usize) -> Option<Visit> {
    match key {
        UP => Some(setting(visit, PLUS)),
        DOWN => Some(setting(visit, MINUS)),
        _ => move_key(kind, visit, key),
    }
}

/// A digit key sets the digit and moves right, staying at the last cell; UP and DOWN step without wrapping.
fn digit_cell_key(kind: &Kind, visit: &Visit, key: usize) -> Option<Visit> {
    match key {
        UP | DOWN => step_key(kind, visit, key, 1),
        digit if is_digit(digit) => {
            let set = setting(visit, digit as i64);
            Some(move_key(kind, &set, RIGHT).unwrap_or(set))
        }
        _ => move_key(kind, visit, key),
    }
}

/// UP and DOWN step the chosen cell or part within its range.
fn step_key(kind: &Kind, visit: &Visit, key: usize, step: i64) -> Option<Visit> {
    let now = visit.cells[visit.chosen];
    let then = match key {
        UP => now + step,
        DOWN => now - step,
        _ => return None,
    };
    let bounds = kind.visit_bounds(visit.chosen, visit.cells_of(kind));
    bounds[visit.chosen].contains(&then).then(|| setting(visit, then))
}

fn switch_key(kind: &Kind, visit: &Visit, key: usize) -> Option<Visit> {
    match key {
        UP => Some(setting(visit, 1)),
        DOWN => Some(setting(visit, 0)),
        _ => move_key(kind, visit, key),
    }
}

/// LEFT is the previous item and RIGHT the next, without wrapping.
fn option_key(kind: &Kind, visit: &Visit, key: usize) -> Option<Visit> {
    match key {
        LEFT => step_key(kind, visit, DOWN, 1),
        RIGHT => step_key(kind, visit, UP, 1),
        _ => None,
    }
}

/// R28: the four cursor keys fire.
fn trigger_key(key: usize) -> Pressed {
    match key {
        UP | DOWN | LEFT | RIGHT => Pressed::Fired,
        _ => Pressed::Flash,
    }
}

/// LEFT and RIGHT move among the cells and flash past an end.
fn move_key(kind: &Kind, visit: &Visit, key: usize) -> Option<Visit> {
    match key {
        LEFT if visit.chosen > 0 => Some(visit.choosing(visit.chosen - 1)),
        RIGHT if visit.chosen + 1 < kind.choices() => Some(visit.choosing(visit.chosen + 1)),
        _ => None,
    }
}

fn setting(visit: &Visit, number: i64) -> Visit {
    let mut next = visit.clone();
    next.cells[visit.chosen] = number;
    next
}
