//! A session: which tables it shows, and what it is doing; whether it fits an image; its steps by keys and seconds.

use crate::fields::{all_within, Field, Kind, MOST_CELLS};
use crate::image::{Component, Line, Menu, Submenu, Table, DEEPEST_TABLE};
use crate::keys::*;
use std::ops::RangeInclusive;

/// 01, refusal 1.
pub const COLUMNS: RangeInclusive<usize> = 14..=20;
pub const LINES: RangeInclusive<usize> = 2..=4;
/// 01 Seconds: the idle count stays at 255.
pub const LONGEST_IDLE: usize = 255;

#[derive(Clone, Debug, PartialEq, Eq)]
pub struct Session {
    pub columns: usize,
    pub lines: usize,
    /// From the top table to the one shown.
    pub levels: Vec<Level>,
    pub idle: usize,
    pub mode: Mode,
}

/// A table of the session with its cursor line and first shown line, both counted from 0.
#[derive(Clone, Debug, PartialEq, Eq)]
pub struct Level {
    pub table: usize,
    pub cursor: usize,
    pub first: usize,
}

#[derive(Clone, Debug, PartialEq, Eq)]
pub enum Mode {
    Browsing,
    Visit(Visit),
    /// A password entry with the digits typed, as numbers 0 to 9.
    Password(Vec<u8>),
}

/// A visit to the component at `place`: the chosen cell or part and the working cells (see `fields`). The cells beyond those that
/// the field has are 0 when the visit opens, and nothing asks for them afterwards.
#[derive(Clone, Debug, PartialEq, Eq)]
pub struct Visit {
    pub place: usize,
    pub chosen: usize,
    pub cells: [i64; MOST_CELLS],
}

/// What an event is answered with (01 "The four calls").
#[derive(Clone, Copy, Debug, PartialEq, Eq)]
pub enum Answer {
    Taken,
    Flash,
    Finished(usize),
    Fired(usize),
    Refused(u8),
}

impl Answer {
    /// 02 No. 2: 0 taken, 1 flash, 65,536 or 131,072 plus the place for finished or fired. The C library has 16,777,216 plus the
    /// refusal for a refused event.
    pub fn number(&self) -> u32 {
        match *self {
            Answer::Taken => 0,
            Answer::Flash => 1,
            Answer::Finished(place) => 65_536 + place as u32,
            Answer::Fired(place) => 131_072 + place as u32,
            Answer::Refused(refusal) => 16_777_216 + u32::from(refusal),
        }
    }
}

impl Session {
    /// 01: what a refused Open returns; it never fits.
    pub fn closed() -> Session {
        Session { columns: 0, lines: 0, levels: vec![], idle: 0, mode: Mode::Browsing }
    }

    /// 01: the top table at line 1, browsing, idle count 0.
    pub fn opened(menu: &Menu, columns: usize, lines: usize) -> Session {
        Session { columns, lines, levels: vec![Level::at_line_1(&menu.top)], idle: 0, mode: Mode::Browsing }
    }

    /// How many lines of a table are shown at once.
    pub fn rows(&self) -> usize {
        self.lines - 1
    }

    pub fn here(&self) -> &Level {
        self.levels.last().expect("a session that fits has a table")
    }

    /// The session's tables, if they begin with the top table and each next one is the submenu of the cursor line before it (R20a).
    fn tables<'a>(&self, menu: &'a Menu) -> Option<Vec<&'a Table>> {
        let (_, above) = self.levels.split_last()?;
        let mut tables = vec![&menu.top];
        for level in above {
            let line = tables[tables.len() - 1].lines.get(level.cursor)?;
            tables.push(&line.submenu.as_ref()?.table);
        }
        let same = self.levels.iter().zip(&tables).all(|(level, table)| level.table == table.place);
        same.then_some(tables)
    }

    /// 01 "A session fits when"; R20b: no more than that is asked.
    pub fn fits(&self, menu: &Menu) -> bool {
        has_legal_shape(self.columns, self.lines)
            && (1..=DEEPEST_TABLE).contains(&self.levels.len())
            && self.levels_fit(menu)
            && self.idle <= LONGEST_IDLE
            && self.mode_fits(self.cursor_line(menu))
    }

    fn levels_fit(&self, menu: &Menu) -> bool {
        match self.tables(menu) {
            Some(tables) => self.levels.iter().zip(tables).all(|(level, table)| level.fits(table, self.rows())),
            None => false,
        }
    }

    fn mode_fits(&self, line: &Line) -> bool {
        match &self.mode {
            Mode::Browsing => true,
            Mode::Visit(visit) => visit.fits(line),
            Mode::Password(typed) => match password_length(line) {
                Some(length) => typed.len() < length && typed.iter().all(|&digit| digit <= 9),
                None => false,
            },
        }
    }

    /// The table shown, of a session whose levels fit.
    pub fn table<'a>(&self, menu: &'a Menu) -> &'a Table {
        self.tables(menu).and_then(|tables| tables.last().copied()).expect("the levels fit")
    }

    pub fn cursor_line<'a>(&self, menu: &'a Menu) -> &'a Line {
        &self.table(menu).lines[self.here().cursor]
    }

    /// One event on a session that fits; a finished visit writes the sheet.
    pub fn step(&self, image: &[u8], menu: &Menu, sheet: &mut [u8], event: usize) -> (Session, Answer) {
        if event == SECOND {
            return (self.second(menu), Answer::Taken);
        }
        let awake = Session { idle: 0, ..self.clone() }; // R21
        let line = self.cursor_line(menu);
        match &self.mode {
            Mode::Browsing => awake.browse(self.table(menu), line, sheet, event),
            Mode::Visit(visit) => awake.visit_key(line, sheet, visit, event),
            Mode::Password(typed) => awake.password_key(image, line, typed, event),
        }
    }

    /// 01 Seconds. In a visit nothing changes; R25: the count stays where it got to.
    fn second(&self, menu: &Menu) -> Session {
        let idle = (self.idle + 1).min(LONGEST_IDLE);
        let is_over = |delay: usize| delay != 0 && idle >= delay;
        let later = Session { idle, ..self.clone() };
        match self.mode {
            Mode::Visit(_) => self.clone(),
            Mode::Password(_) if is_over(menu.delay_password) => later.with_mode(Mode::Browsing),
            Mode::Browsing if is_over(menu.delay_to_top) => later.with_levels(vec![Level::at_line_1(&menu.top)]),
            _ => later,
        }
    }

    /// 01 Keys, browsing.
    fn browse(self, table: &Table, line: &Line, sheet: &[u8], key: usize) -> (Session, Answer) {
        let next = match key {
            UP => self.up(),
            DOWN => self.down(table),
            LEFT => self.left(),
            RIGHT => line.submenu.as_ref().map(|submenu| self.right(submenu)),
            ENTER => line.editables().next().map(|component| self.visiting(component, sheet)),
            _ => None,
        };
        next.map_or((self, Answer::Flash), |next| (next, Answer::Taken))
    }

    /// R23: the first shown line moves only if the cursor would stand above it.
    fn up(&self) -> Option<Session> {
        let level = self.here();
        let cursor = level.cursor.checked_sub(1)?;
        Some(self.with_here(Level { cursor, first: level.first.min(cursor), ..*level }))
    }

    /// R23: the first shown line moves only if the cursor would stand below the last row.
    fn down(&self, table: &Table) -> Option<Session> {
        let level = self.here();
        let cursor = level.cursor + 1;
        let first = level.first.max((cursor + 1).saturating_sub(self.rows()));
        (cursor < table.lines.len()).then(|| self.with_here(Level { cursor, first, ..*level }))
    }

    /// R22: back to the line left.
    fn left(&self) -> Option<Session> {
        let above = &self.levels[..self.levels.len() - 1];
        (!above.is_empty()).then(|| self.with_levels(above.to_vec()))
    }

    /// R24: a protected submenu asks for its password first.
    fn right(&self, submenu: &Submenu) -> Session {
        match submenu.password {
            Some(_) => self.with_mode(Mode::Password(vec![])),
            None => self.entering(submenu),
        }
    }

    fn entering(&self, submenu: &Submenu) -> Session {
        let mut levels = self.levels.clone();
        levels.push(Level::at_line_1(&submenu.table));
        self.with_levels(levels).with_mode(Mode::Browsing)
    }

    fn visiting(&self, component: &Component, sheet: &[u8]) -> Session {
        let field = component.field().expect("an editable component is a field");
        self.with_mode(Mode::Visit(Visit::opened(component.place, &field.starting_cells(sheet))))
    }

    /// 01 Keys, a visit: on a copy; the sheet changes only when it is finished.
    fn visit_key(self, line: &Line, sheet: &mut [u8], visit: &Visit, key: usize) -> (Session, Answer) {
        let (component, field) = visit.component(line).expect("the visit fits");
        match press(&field.kind, visit, key) {
            Pressed::Taken(next) => (self.with_mode(Mode::Visit(next)), Answer::Taken),
            Pressed::Flash => (self, Answer::Flash),
            Pressed::Fired => (self, Answer::Fired(component.place)),
            Pressed::Passed => (self.passing(line, component, sheet), Answer::Taken),
            Pressed::Finished(bytes) => {
                field.write(sheet, &bytes);
                (self.passing(line, component, sheet), Answer::Finished(component.place))
            }
        }
    }

    /// Opens the next editable component of the line, or ends editing.
    fn passing(&self, line: &Line, from: &Component, sheet: &[u8]) -> Session {
        match line.editables().find(|component| component.place > from.place) {
            Some(component) => self.visiting(component, sheet),
            None => self.with_mode(Mode::Browsing),
        }
    }

    /// 01 Keys, password.
    fn password_key(self, image: &[u8], line: &Line, typed: &[u8], key: usize) -> (Session, Answer) {
        match key {
            LEFT => (self.with_mode(Mode::Browsing), Answer::Taken),
            digit if is_digit(digit) => {
                let submenu = line.submenu.as_ref().expect("the entry fits");
                self.type_digit(image, submenu, [typed, &[digit as u8]].concat())
            }
            _ => (self, Answer::Flash),
        }
    }

    /// With the last digit the submenu opens if all are right, else flash and browsing.
    fn type_digit(self, image: &[u8], submenu: &Submenu, typed: Vec<u8>) -> (Session, Answer) {
        let password = &image[submenu.password.clone().expect("the entry fits")];
        if typed.len() < password.len() {
            (self.with_mode(Mode::Password(typed)), Answer::Taken)
        } else if typed.iter().map(|digit| digit + b'0').eq(password.iter().copied()) {
            (self.entering(submenu), Answer::Taken)
        } else {
            (self.with_mode(Mode::Browsing), Answer::Flash)
        }
    }

    fn with_mode(&self, mode: Mode) -> Session {
        Session { mode, ..self.clone() }
    }

    fn with_levels(&self, levels: Vec<Level>) -> Session {
        Session { levels, ..self.clone() }
    }

    fn with_here(&self, level: Level) -> Session {
        let mut levels = self.levels.clone();
        levels.pop();
        levels.push(level);
        self.with_levels(levels)
    }
}

impl Level {
    /// Cursor line and first shown line exist, the cursor being within the `rows` lines shown.
    fn fits(&self, table: &Table, rows: usize) -> bool {
        let exist = self.cursor < table.lines.len() && self.first < table.lines.len();
        exist && self.first <= self.cursor && self.cursor - self.first < rows
    }

    fn at_line_1(table: &Table) -> Level {
        Level { table: table.place, cursor: 0, first: 0 }
    }
}

impl Visit {
    /// Integers and switches start at the leftmost cell, times and dates at the first part.
    pub fn opened(place: usize, starting: &[i64]) -> Visit {
        let mut cells = [0; MOST_CELLS];
        cells[..starting.len()].copy_from_slice(starting);
        Visit { place, chosen: 0, cells }
    }

    /// The same visit with another cell or part chosen.
    pub fn choosing(&self, chosen: usize) -> Visit {
        Visit { chosen, ..self.clone() }
    }

    /// The working cells that a field of this kind has.
    pub fn cells_of(&self, kind: &Kind) -> &[i64] {
        &self.cells[..kind.cell_bounds().len()]
    }

    /// The editable component that is visited, if it is on this line.
    pub fn component<'a>(&self, line: &'a Line) -> Option<(&'a Component, &'a Field)> {
        let component = line.editables().find(|component| component.place == self.place)?;
        Some((component, component.field()?))
    }

    /// A cell or part that the field has; a working value in range, or legal signs and digits; in the day part of a date a real
    /// date (R49).
    fn fits(&self, line: &Line) -> bool {
        match self.component(line) {
            Some((_, field)) => {
                let cells = self.cells_of(&field.kind);
                self.chosen < field.kind.choices() && all_within(&field.kind.visit_bounds(self.chosen, cells), cells)
            }
            None => false,
        }
    }
}

pub fn has_legal_shape(columns: usize, lines: usize) -> bool {
    COLUMNS.contains(&columns) && LINES.contains(&lines)
}

/// How many digits the protected submenu of a line has.
pub fn password_length(line: &Line) -> Option<usize> {
    line.submenu.as_ref()?.password.as_ref().map(|digits| digits.len())
}
