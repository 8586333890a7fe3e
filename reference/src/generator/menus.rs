//! Random menus that are well formed: trees of tables, chains down to the deepest, and menus at the limits of refusal 8.

use super::components::{component, component_of, text};
use super::lay::{ComponentPlan, LinePlan, MenuPlan, TablePlan};
use crate::components::{DATE_LONG, DATE_SHORT, STRING, TRIGGER, UCHAR_DD};
use crate::image::*;
use crate::random::Random;

/// How many tables a random tree gets at most.
const MOST_TABLES: usize = 12;

/// What a planned menu is about.
#[derive(Clone, Copy, PartialEq, Eq, Debug)]
pub enum Shape {
    Tree,
    /// Each table has the next as a submenu.
    Chain(usize),
    /// One table of so many lines.
    Long(usize),
    /// So many lines in all, by tables that are reached more than once (R11).
    ManyLines(usize),
    ManyFields(usize),
    /// One table of so many lines with dates.
    Dates(usize),
}

/// A menu and how many sheet bytes its fields need.
pub struct Planned {
    pub menu: MenuPlan,
    pub sheet_length: usize,
}

/// A shape within the limits, mostly a tree.
pub fn any_shape(random: &mut Random) -> Shape {
    if random.once_in(400) {
        return *random.pick(&[Shape::Long(MOST_LINES_OF_A_TABLE), Shape::ManyLines(MOST_LINES), Shape::ManyFields(MOST_FIELDS)]);
    }
    let depth = random.within(4, DEEPEST_TABLE as i64) as usize;
    let lines = random.within(5, 30) as usize;
    random.weighted(&[(80, Shape::Tree), (15, Shape::Chain(depth)), (5, Shape::Long(lines))])
}

/// One shape that breaks a limit (refusal 8).
pub fn beyond_limits(random: &mut Random) -> Shape {
    *random.pick(&[
        Shape::Chain(DEEPEST_TABLE + 1),
        Shape::Chain(DEEPEST_TABLE + 2),
        Shape::Long(MOST_LINES_OF_A_TABLE + 1),
        Shape::ManyLines(MOST_LINES + 1),
        Shape::ManyFields(MOST_FIELDS + 1),
    ])
}

pub fn menu(random: &mut Random, shape: Shape) -> Planned {
    let tables = match shape {
        Shape::Tree => tree(random),
        Shape::Chain(depth) => chain(random, depth),
        Shape::Long(lines) => vec![long_table(random, lines)],
        Shape::ManyLines(lines) => many_lines(random, lines),
        Shape::ManyFields(fields) => many_fields(random, fields),
        Shape::Dates(lines) => vec![dates_table(random, lines)],
    };
    let is_chain = matches!(shape, Shape::Chain(_));
    let to_top = if is_chain && random.chance(70) { 0 } else { delay(random) };
    let delays = [to_top, random.byte(), delay(random)];
    let mut menu = MenuPlan { delays, tables };
    let sheet_length = give_addresses(random, &mut menu);
    Planned { menu, sheet_length }
}

fn delay(random: &mut Random) -> u8 {
    match random.below(10) {
        0..=2 => 0,
        3..=8 => random.within(1, 5) as u8,
        _ => random.byte(),
    }
}

/// A table with some lines of its own.
fn table(random: &mut Random, lines: usize, plain: bool) -> TablePlan {
    let longest = random.weighted(&[(50, 8), (40, 20), (2, 255)]);
    let gap = if random.once_in(8) { random.below(6) } else { 0 };
    TablePlan { title: text(random, longest), lines: (0..lines).map(|_| line(random, plain)).collect(), gap: random.bytes(gap) }
}

fn line(random: &mut Random, plain: bool) -> LinePlan {
    let components = random.weighted(&[(35, 1), (30, 2), (20, 3), (10, 4), (2, 9)]);
    LinePlan {
        enable: random.once_in(7).then(|| random.number() as u16),
        components: (0..components).map(|_| component(random, plain)).collect(),
        ..LinePlan::default()
    }
}

/// Makes table `to` the submenu of a line, protected at times.
fn lead(random: &mut Random, line: &mut LinePlan, to: usize) {
    line.submenu = Some(to);
    line.password = random.once_in(3).then(|| {
        let length = random.edgy(1, 8) as usize;
        (0..length).map(|_| b'0' + random.below(10) as u8).collect()
    });
}

/// A tree of tables; a leaf without sheet bytes may be reached from several lines.
fn tree(random: &mut Random) -> Vec<TablePlan> {
    let mut tables = vec![];
    let mut shared = vec![];
    grow(random, &mut tables, &mut shared, 1);
    tables[0].gap.clear();
    if random.chance(30) {
        reorder(random, &mut tables);
    }
    tables
}

fn grow(random: &mut Random, tables: &mut Vec<TablePlan>, shared: &mut Vec<usize>, depth: usize) -> usize {
    let lines = random.weighted(&[(15, 1), (25, 2), (20, 3), (20, 4), (10, 5), (8, 8), (2, 14)]);
    let plain = random.chance(20);
    let own = tables.len();
    tables.push(table(random, lines, plain));
    let mut is_leaf = true;
    for at in 0..lines {
        let may_grow = tables.len() < MOST_TABLES && depth < DEEPEST_TABLE;
        let to = if may_grow && random.chance(30) {
            grow(random, tables, shared, depth + 1)
        } else if depth < DEEPEST_TABLE && !shared.is_empty() && random.chance(20) {
            *random.pick(shared)
        } else {
            continue;
        };
        is_leaf = false;
        lead(random, &mut tables[own].lines[at], to);
    }
    if plain && is_leaf {
        shared.push(own);
    }
    own
}

/// Puts the tables behind the top one in another order.
fn reorder(random: &mut Random, tables: &mut Vec<TablePlan>) {
    let mut order: Vec<usize> = (1..tables.len()).collect();
    random.shuffle(&mut order);
    order.insert(0, 0);
    let mut now_at = vec![0; order.len()];
    for (now, &before) in order.iter().enumerate() {
        now_at[before] = now;
    }
    *tables = order.iter().map(|&before| tables[before].clone()).collect();
    for line in tables.iter_mut().flat_map(|table| &mut table.lines) {
        line.submenu = line.submenu.map(|before| now_at[before]);
    }
}

fn chain(random: &mut Random, depth: usize) -> Vec<TablePlan> {
    let mut tables: Vec<TablePlan> = Vec::new();
    for level in 0..depth {
        let lines = random.within(1, 3) as usize;
        let mut own = table(random, lines, false);
        if level == 0 {
            own.gap.clear();
        }
        if level + 1 < depth {
            lead(random, &mut own.lines[0], level + 1);
            own.lines[0].password = own.lines[0].password.take().filter(|_| random.chance(40));
        }
        tables.push(own);
    }
    tables
}

fn long_table(random: &mut Random, lines: usize) -> TablePlan {
    let mut long = table(random, 1, false);
    long.gap.clear();
    let short_line = |random: &mut Random| LinePlan { components: vec![component(random, true)], ..LinePlan::default() };
    long.lines.extend((1..lines).map(|_| short_line(random)));
    long
}

/// A top table of 32 lines whose submenus are tables of 31: 1,024 lines; one more line in the last submenu for 1,025.
fn many_lines(random: &mut Random, lines: usize) -> Vec<TablePlan> {
    let mut top = plain_table(random, 32);
    let sub = plain_table(random, 31);
    let last = plain_table(random, lines - 32 - 31 * 31);
    for at in 0..31 {
        top.lines[at].submenu = Some(1);
    }
    top.lines[31].submenu = Some(2);
    vec![top, sub, last]
}

fn plain_table(random: &mut Random, lines: usize) -> TablePlan {
    let one = LinePlan { components: vec![component_of(random, STRING)], ..LinePlan::default() };
    TablePlan { title: text(random, 10), lines: vec![one; lines], gap: vec![] }
}

/// Fields that are triggers or small integers, some on each line; the last one is an integer.
fn many_fields(random: &mut Random, fields: usize) -> Vec<TablePlan> {
    let mut top = plain_table(random, 0);
    let mut left = fields;
    while left > 0 {
        let here = left.min(5);
        let mut components: Vec<_> = (1..here).map(|_| small_field(random)).collect();
        components.push(component_of(random, UCHAR_DD));
        top.lines.push(LinePlan { components, ..LinePlan::default() });
        left -= here;
    }
    vec![top]
}

fn small_field(random: &mut Random) -> ComponentPlan {
    let code = *random.pick(&[TRIGGER, UCHAR_DD]);
    component_of(random, code)
}

/// Lines of one or two dates, at times with a text before them.
fn dates_table(random: &mut Random, lines: usize) -> TablePlan {
    let mut table = plain_table(random, 0);
    for _ in 0..lines {
        let texts = random.below(2);
        let dates = random.within(1, 2) as usize;
        let codes = [vec![STRING; texts], (0..dates).map(|_| *random.pick(&[DATE_LONG, DATE_SHORT])).collect()].concat();
        let components = codes.into_iter().map(|code| component_of(random, code)).collect();
        table.lines.push(LinePlan { components, ..LinePlan::default() });
    }
    table
}

/// Gives each field bytes of its own, in any order and with gaps; answers how long the sheet must be.
fn give_addresses(random: &mut Random, menu: &mut MenuPlan) -> usize {
    let mut places = Vec::new();
    for (t, table) in menu.tables.iter().enumerate() {
        for (l, line) in table.lines.iter().enumerate() {
            places.extend((0..line.components.len()).map(|c| (t, l, c)));
        }
    }
    if random.chance(60) {
        random.shuffle(&mut places);
    }
    let gappy = random.chance(40);
    let mut next = if random.once_in(20) { random.below(3000) } else { 0 };
    let mut used = 0;
    for (t, l, c) in places {
        let component = &mut menu.tables[t].lines[l].components[c];
        if component.sheet_size > 0 {
            next += if gappy { random.below(3) } else { 0 };
            component.set_var_addr(next);
            next += component.sheet_size;
            used = next;
        }
    }
    used
}
