//! How a session stands in the bytes that the C library keeps for it: one table, filled in from its header.

use crate::fields::MOST_CELLS;
use crate::image::DEEPEST_TABLE;
use crate::session::{has_legal_shape, Level, Mode, Session, Visit};

/// What the sign cell of an integer holds.
pub const MINUS: i64 = 0;
pub const PLUS: i64 = 1;

/// What the working cell of a counter holds for 0, so that no cell is below 0.
pub const COUNTER_ZERO: i64 = 32_768;

/// A number at a place of the session's bytes: low byte first, `from` is what 0 is stored as.
#[derive(Clone, Copy)]
pub struct Item {
    pub at: usize,
    pub size: usize,
    pub from: i64,
}

/// A row of equal items, `stride` bytes apart.
#[derive(Clone, Copy)]
pub struct Items {
    pub first: Item,
    pub stride: usize,
}

/// The table of a layout. Levels stand in the order from the top table to the one shown.
pub struct Layout {
    pub bytes: usize,
    pub columns: Item,
    pub lines: Item,
    /// How many tables.
    pub depth: Item,
    pub tables: Items,
    pub cursors: Items,
    pub firsts: Items,
    /// Where the level shown has a record of its own, not in the row of those above: its three places.
    pub here: Option<[Item; 3]>,
    pub idle: Item,
    pub mode: Item,
    pub browsing: i64,
    pub visit: i64,
    pub password: i64,
    pub place: Item,
    pub chosen: Item,
    /// What each cell of a kind holds is said in `fields`.
    pub cells: Items,
    pub typed: Item,
    pub digits: Items,
    pub most_digits: usize,
}

const fn item(at: usize, size: usize) -> Item {
    Item { at, size, from: 0 }
}

const fn items(at: usize, size: usize, stride: usize) -> Items {
    Items { first: item(at, size), stride }
}

/// Whether `LAYOUT` is that of the library. While it is not, forged sessions are played on the reference only.
pub const IS_DOCUMENTED: bool = true;

/// Columns, lines, how many levels are above; seven levels above and the level here, each its table's place in eight bytes, cursor
/// line and first shown line; idle count; mode and, in eight bytes, the visit's place or the count of typed digits, of which the
/// lowest byte counts; the chosen cell; 32 cells; eight typed digits.
pub const LAYOUT: Layout = Layout {
    bytes: 230,
    columns: item(0, 1),
    lines: item(1, 1),
    depth: Item { at: 2, size: 1, from: -1 },
    tables: items(3, 8, 10),
    cursors: items(11, 1, 10),
    firsts: items(12, 1, 10),
    here: Some([item(73, 8), item(81, 1), item(82, 1)]),
    idle: item(83, 1),
    mode: item(84, 1),
    browsing: 0,
    visit: 1,
    password: 2,
    place: item(85, 8),
    chosen: item(93, 1),
    cells: items(94, 4, 4),
    typed: item(85, 1),
    digits: items(222, 1, 1),
    most_digits: 8,
};

impl Item {
    fn read(self, bytes: &[u8]) -> i64 {
        let pattern = bytes[self.at..self.at + self.size].iter().rev().fold(0, |high, &low| high * 256 + i64::from(low));
        pattern - self.from
    }

    fn write(self, bytes: &mut [u8], number: i64) {
        bytes[self.at..self.at + self.size].copy_from_slice(&(number + self.from).to_le_bytes()[..self.size]);
    }
}

impl Items {
    fn nth(self, n: usize) -> Item {
        Item { at: self.first.at + n * self.stride, ..self.first }
    }
}

impl Layout {
    /// The items of level `n` of `depth`.
    fn level(&self, n: usize, depth: usize) -> [Item; 3] {
        match self.here {
            Some(here) if n + 1 == depth => here,
            _ => [self.tables.nth(n), self.cursors.nth(n), self.firsts.nth(n)],
        }
    }
}

/// A number as a session keeps it; one that is below 0 there is above every limit.
fn count(number: i64) -> usize {
    usize::try_from(number).unwrap_or(usize::MAX >> 1)
}

/// The session in these bytes, whatever they are; bytes of no shape or depth that there is are the closed session.
pub fn session_from_bytes(layout: &Layout, bytes: &[u8]) -> Session {
    let depth = count(layout.depth.read(bytes));
    let columns = count(layout.columns.read(bytes));
    let lines = count(layout.lines.read(bytes));
    let mode = mode_from_bytes(layout, bytes);
    let (Some(mode), 1..=DEEPEST_TABLE, true) = (mode, depth, has_legal_shape(columns, lines)) else {
        return Session::closed();
    };
    let level = |n: usize| {
        let [table, cursor, first] = layout.level(n, depth).map(|item| count(item.read(bytes)));
        Level { table, cursor, first }
    };
    let levels = (0..depth).map(level).collect();
    Session { columns, lines, levels, idle: count(layout.idle.read(bytes)), mode }
}

/// A number that is no mode's is browsing; more digits than a session keeps are no entry.
fn mode_from_bytes(layout: &Layout, bytes: &[u8]) -> Option<Mode> {
    let mode = layout.mode.read(bytes);
    if mode == layout.visit {
        let place = count(layout.place.read(bytes));
        let chosen = count(layout.chosen.read(bytes));
        let cells = std::array::from_fn(|n| layout.cells.nth(n).read(bytes));
        Some(Mode::Visit(Visit { place, chosen, cells }))
    } else if mode == layout.password {
        let typed = count(layout.typed.read(bytes));
        let digit = |n: usize| layout.digits.nth(n).read(bytes).clamp(0, 255) as u8;
        (typed <= layout.most_digits).then(|| Mode::Password((0..typed).map(digit).collect()))
    } else {
        Some(Mode::Browsing)
    }
}

/// The bytes of a session; what it does not use is 0.
pub fn session_to_bytes(layout: &Layout, session: &Session) -> Vec<u8> {
    let mut bytes = vec![0; layout.bytes];
    layout.columns.write(&mut bytes, session.columns as i64);
    layout.lines.write(&mut bytes, session.lines as i64);
    layout.depth.write(&mut bytes, session.levels.len() as i64);
    layout.idle.write(&mut bytes, session.idle as i64);
    for (n, level) in session.levels.iter().take(DEEPEST_TABLE).enumerate() {
        let [table, cursor, first] = layout.level(n, session.levels.len());
        table.write(&mut bytes, level.table as i64);
        cursor.write(&mut bytes, level.cursor as i64);
        first.write(&mut bytes, level.first as i64);
    }
    write_mode(layout, &mut bytes, &session.mode);
    bytes
}

fn write_mode(layout: &Layout, bytes: &mut [u8], mode: &Mode) {
    match mode {
        Mode::Browsing => layout.mode.write(bytes, layout.browsing),
        Mode::Visit(visit) => {
            layout.mode.write(bytes, layout.visit);
            layout.place.write(bytes, visit.place as i64);
            layout.chosen.write(bytes, visit.chosen as i64);
            for n in 0..MOST_CELLS {
                layout.cells.nth(n).write(bytes, visit.cells[n]);
            }
        }
        Mode::Password(typed) => {
            layout.mode.write(bytes, layout.password);
            layout.typed.write(bytes, typed.len() as i64);
            for (n, &digit) in typed.iter().take(layout.most_digits).enumerate() {
                layout.digits.nth(n).write(bytes, i64::from(digit));
            }
        }
    }
}
