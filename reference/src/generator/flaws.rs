//! Images and sheets to play on: good ones, ones with a flaw of each refusal number, and ones damaged at random.

use super::components::{bad_count, component, component_of, later, make_unreal};
use super::lay::{lay, ComponentPlan, Laid, Mark};
use super::menus::{any_shape, beyond_limits, menu, Planned, Shape};
use crate::components::{COUNTER, OPTION, STRING, SWITCH};
use crate::image::{LONGEST_IMAGE, LONGEST_SHEET, PROLOG};
use crate::random::Random;

/// An image and a sheet to lend with it.
#[derive(Clone)]
pub struct Material {
    pub image: Vec<u8>,
    pub sheet: Vec<u8>,
}

/// A good menu, laid out, with a sheet that is long enough.
pub fn good(random: &mut Random) -> Material {
    let shape = any_shape(random);
    let planned = menu(random, shape);
    with_sheet(random, lay(&planned.menu).image, planned.sheet_length)
}

/// A good menu of dates.
pub fn dates(random: &mut Random) -> Material {
    let planned = dates_menu(random);
    with_sheet(random, lay(&planned.menu).image, planned.sheet_length)
}

fn dates_menu(random: &mut Random) -> Planned {
    let lines = random.within(1, 4) as usize;
    menu(random, Shape::Dates(lines))
}

/// A menu of dates, one of them with a default that is not real: refusal 9.
pub fn unreal_default(random: &mut Random) -> Material {
    let mut planned = dates_menu(random);
    let mut dates = stored_components(&mut planned);
    let which = random.below(dates.len());
    make_unreal(random, dates[which]);
    with_sheet(random, lay(&planned.menu).image, planned.sheet_length)
}

fn good_tree(random: &mut Random) -> (Planned, Laid) {
    let planned = menu(random, Shape::Tree);
    let laid = lay(&planned.menu);
    (planned, laid)
}

fn with_sheet(random: &mut Random, image: Vec<u8>, needed: usize) -> Material {
    let spare = random.weighted(&[(60, 0), (30, 1), (20, 7), (2, LONGEST_SHEET - needed.min(LONGEST_SHEET))]);
    Material { image, sheet: contents(random, needed + spare) }
}

/// Sheet bytes: random, small, or all the same.
pub fn contents(random: &mut Random, length: usize) -> Vec<u8> {
    match random.below(4) {
        0 => vec![0; length],
        1 => vec![0xFF; length],
        2 => (0..length).map(|_| random.below(14) as u8).collect(),
        _ => random.bytes(length),
    }
}

/// A good image with some bytes changed, cut off or added.
pub fn damaged(random: &mut Random) -> Material {
    let mut material = good(random);
    match random.below(5) {
        0 => cut(random, &mut material.image),
        1 => {
            let more = random.below(20);
            material.image.extend(random.bytes(more));
        }
        _ => {
            for _ in 0..random.within(1, 4) {
                let at = random.below(material.image.len());
                material.image[at] = damaged_byte(random, material.image[at]);
            }
        }
    }
    material
}

fn damaged_byte(random: &mut Random, byte: u8) -> u8 {
    match random.below(4) {
        0 => byte ^ 1 << random.below(8),
        1 => byte.wrapping_add(1),
        2 => byte.wrapping_sub(1),
        _ => random.byte(),
    }
}

fn cut(random: &mut Random, image: &mut Vec<u8>) {
    let length = random.within(PROLOG as i64, image.len() as i64 - 1) as usize;
    image.truncate(length);
}

/// Cut at a structure's first byte or next to it.
fn cut_at_structure(random: &mut Random, laid: &mut Laid) {
    let (_, place) = *random.pick(&laid.marks);
    laid.image.truncate(place + random.below(3));
}

/// A good prolog with any bytes behind it.
pub fn junk(random: &mut Random) -> Material {
    let mut image = b"CMF\x00\x04\x03\x00\x03\xFF\xFE".to_vec();
    let length = random.below(60);
    let highest = *random.pick(&[3, 0x17, 0xFF]);
    image.extend((0..length).map(|_| random.within(0, highest) as u8));
    let sheet_length = random.below(40);
    Material { image, sheet: contents(random, sheet_length) }
}

/// A flaw and some damage on top, so that a structure is at fault by several numbers.
pub fn flawed_and_damaged(random: &mut Random, refusal: u8) -> Material {
    let mut material = flawed(random, refusal);
    if material.image.len() > PROLOG {
        for _ in 0..random.within(1, 6) {
            let at = random.within(PROLOG as i64, material.image.len() as i64 - 1) as usize;
            material.image[at] = damaged_byte(random, material.image[at]);
        }
    }
    material
}

/// An image or sheet that is meant to get this refusal, 2 to 11. The walk may still meet another fault first, or none.
pub fn flawed(random: &mut Random, refusal: u8) -> Material {
    match refusal {
        2 => wrong_length(random),
        3 => prolog_flaw(random, 0, 3),
        4 => prolog_flaw(random, 3, 2),
        5 => prolog_flaw(random, 8, 2),
        6 => beyond_image(random),
        7 => wrong_pattern(random),
        8 => over_limit(random),
        9 => bad_settings(random),
        10 => beyond_sheet(random),
        _ if random.chance(30) => shared_last_byte(random),
        _ => shared_byte(random),
    }
}

fn wrong_length(random: &mut Random) -> Material {
    let mut material = good(random);
    let length = *random.pick(&[0, 1, 5, 9, LONGEST_IMAGE, LONGEST_IMAGE + 1]);
    material.image.resize(length, 0);
    material
}

fn prolog_flaw(random: &mut Random, from: usize, length: usize) -> Material {
    let mut material = good(random);
    let at = from + random.below(length);
    material.image[at] = damaged_byte(random, material.image[at]);
    material
}

/// A cut image, or a string or an offset that leads out of it.
fn beyond_image(random: &mut Random) -> Material {
    let (planned, mut laid) = good_tree(random);
    let lengths = [laid.places(Mark::Title), laid.places(Mark::Password)].concat();
    let offsets = [laid.places(Mark::SubmenuOffset), laid.places(Mark::NextOffset)].concat();
    match random.below(5) {
        0 => laid.image[*random.pick(&lengths)] = 255,
        1 | 2 => cut_at_structure(random, &mut laid),
        3 if !offsets.is_empty() => {
            let at = *random.pick(&offsets);
            let past = laid.image.len() + random.below(3) - 1;
            laid.image[at..at + 2].copy_from_slice(&(past as u16).to_le_bytes());
        }
        _ => cut(random, &mut laid.image),
    }
    with_sheet(random, laid.image, planned.sheet_length)
}

/// A place of one of these marks, if there is any.
fn some_place(random: &mut Random, laid: &Laid, mark: Mark) -> Option<usize> {
    let places = laid.places(mark);
    (!places.is_empty()).then(|| *random.pick(&places))
}

fn wrong_pattern(random: &mut Random) -> Material {
    if random.chance(20) {
        let component = later(random);
        return with_component(random, component);
    }
    let (planned, mut laid) = good_tree(random);
    let mark = *random.pick(&[
        Mark::Padding,
        Mark::LineTag,
        Mark::NextOffset,
        Mark::PreviousOffset,
        Mark::SubmenuOffset,
        Mark::Component,
        Mark::Component,
    ]);
    if let Some(at) = some_place(random, &laid, mark) {
        let code = laid.image[at] & 0x1F;
        match mark {
            Mark::LineTag => laid.image[at] ^= *random.pick(&[0x01, 0x02, 0x08, 0x10, 0x20, 0x40, 0x80]),
            Mark::Component if matches!(code, SWITCH | OPTION) => {
                let which = at + *random.pick(&[6, 7, 8]); // length, count, field-width
                laid.image[which] = damaged_byte(random, laid.image[which]);
            }
            Mark::Component => laid.image[at] |= 0x18,
            Mark::NextOffset if random.chance(50) => lead_elsewhere(random, &mut laid, at),
            _ => laid.image[at] = damaged_byte(random, laid.image[at]),
        }
    }
    with_sheet(random, laid.image, planned.sheet_length)
}

/// A next-line-ofs that leads to some line at or behind its own.
fn lead_elsewhere(random: &mut Random, laid: &mut Laid, at: usize) {
    let own = at - 1;
    let lines: Vec<usize> = laid.places(Mark::LineTag).into_iter().filter(|&line| line >= own).collect();
    let offset = random.pick(&lines) - own;
    laid.image[at..at + 2].copy_from_slice(&(offset as u16).to_le_bytes());
}

/// A menu with one more component.
fn with_component(random: &mut Random, component: ComponentPlan) -> Material {
    let (mut planned, _) = good_tree(random);
    let table = random.below(planned.menu.tables.len());
    let line = random.below(planned.menu.tables[table].lines.len());
    planned.menu.tables[table].lines[line].components.push(component);
    with_sheet(random, lay(&planned.menu).image, planned.sheet_length)
}

/// Over a limit, or a table that is its own submenu.
fn over_limit(random: &mut Random) -> Material {
    if random.chance(40) {
        return own_submenu(random);
    }
    let shape = beyond_limits(random);
    let mut planned = menu(random, shape);
    if random.chance(20) {
        let last = planned.menu.tables.last_mut().and_then(|table| table.lines.last_mut()).expect("a table has a line");
        last.submenu = Some(0);
        last.password = Some(any_password(random));
    }
    let mut laid = lay(&planned.menu);
    if random.chance(60) {
        spoil_last(random, &mut laid);
    }
    with_sheet(random, laid.image, planned.sheet_length)
}

fn own_submenu(random: &mut Random) -> Material {
    let (mut planned, _) = good_tree(random);
    let table = random.below(planned.menu.tables.len());
    let line = random.below(planned.menu.tables[table].lines.len());
    let lines = &mut planned.menu.tables[table].lines;
    lines[line].submenu = Some(table);
    for own in lines.iter_mut() {
        own.components = vec![component(random, true)];
    }
    with_sheet(random, lay(&planned.menu).image, planned.sheet_length)
}

/// Another fault at the last title, line or component, where the limit is passed: the lowest number decides there.
fn spoil_last(random: &mut Random, laid: &mut Laid) {
    let mark = *random.pick(&[Mark::Title, Mark::LineTag, Mark::Component]);
    let place = *laid.places(mark).last().expect("each image has one");
    match random.below(3) {
        0 => laid.image.truncate(place + random.below(3)),
        1 => {
            let at = (place + random.below(8)).min(laid.image.len() - 1);
            laid.image[at] = damaged_byte(random, laid.image[at]);
        }
        _ => *laid.image.last_mut().expect("not empty") = 0xFF, // the default of an integer
    }
}

/// Settings bytes changed at random, a count that is none, a date that is not real, or a password that is none.
fn bad_settings(random: &mut Random) -> Material {
    match random.below(100) {
        0..15 => {
            let component = bad_count(random);
            return with_component(random, component);
        }
        15..35 => return unreal_default(random),
        _ => {}
    }
    let (mut planned, _) = good_tree(random);
    let spoil_passwords = random.chance(40);
    if spoil_passwords {
        let lines = planned.menu.tables.iter_mut().flat_map(|table| &mut table.lines);
        for line in lines.filter(|line| line.submenu.is_some()) {
            line.password = Some(any_password(random));
        }
    }
    let mut laid = lay(&planned.menu);
    if !spoil_passwords {
        for at in laid.places(Mark::Component) {
            spoil_settings(random, &mut laid.image, at);
        }
    }
    with_sheet(random, laid.image, planned.sheet_length)
}

/// A password on either side of 1 to 8 digits, seldom with a byte that is no digit.
fn any_password(random: &mut Random) -> Vec<u8> {
    let length = *random.pick(&[0, 1, 4, 7, 8, 8, 9, 10]);
    let mut password: Vec<u8> = (0..length).map(|_| b'0' + random.below(10) as u8).collect();
    if length > 0 && random.chance(20) {
        password[random.below(length)] = *random.pick(&[b'/', b':', 0, 9, 0xFF]);
    }
    password
}

/// One component in three gets another byte among its settings.
fn spoil_settings(random: &mut Random, image: &mut [u8], at: usize) {
    let code = image[at] & 0x1F;
    let (from, length) = match code {
        SWITCH => (10, 4),
        OPTION => (9, 1),
        COUNTER => (6, 9),
        0x00..=0x04 => (6, 1),
        0x05..=0x12 => (6, 2),
        _ => return,
    };
    if random.once_in(3) {
        let which = at + from + random.below(length);
        let now = image[which];
        image[which] = *random.pick(&[0, 0x7F, 0x80, 0xFF, now.wrapping_add(60), now.wrapping_add(1), now.wrapping_sub(1)]);
    }
}

fn beyond_sheet(random: &mut Random) -> Material {
    let (mut planned, _) = good_tree(random);
    let needed = planned.sheet_length;
    let length = match random.below(5) {
        0 => LONGEST_SHEET + 1 + random.below(3),
        1 => {
            without_fields(random, &mut planned);
            LONGEST_SHEET + 1
        }
        2 => random.below(needed + 1),
        _ => needed.saturating_sub(1),
    };
    Material { image: lay(&planned.menu).image, sheet: contents(random, length) }
}

/// Without fields no sheet is too long.
fn without_fields(random: &mut Random, planned: &mut Planned) {
    let lines = planned.menu.tables.iter_mut().flat_map(|table| &mut table.lines);
    for component in lines.flat_map(|line| &mut line.components) {
        *component = component_of(random, STRING);
    }
}

/// One field's var-addr moved near that of another.
fn shared_byte(random: &mut Random) -> Material {
    let (mut planned, _) = good_tree(random);
    let mut stored = stored_components(&mut planned);
    if stored.len() > 1 {
        let other = random.below(stored.len());
        let near = stored[other].var_addr();
        let moved = near.saturating_add_signed(random.within(-2, 2) as isize);
        let which = random.below(stored.len());
        stored[which].set_var_addr(moved);
    }
    with_sheet(random, lay(&planned.menu).image, planned.sheet_length + 3)
}

/// One field moved onto the one that ends the sheet, so that it may also run past the end.
fn shared_last_byte(random: &mut Random) -> Material {
    let (mut planned, _) = good_tree(random);
    let mut stored = stored_components(&mut planned);
    if let Some(last) = stored.iter().map(|one| one.var_addr()).max() {
        let which = random.below(stored.len());
        stored[which].set_var_addr(last);
    }
    Material { image: lay(&planned.menu).image, sheet: contents(random, planned.sheet_length) }
}

/// The components with sheet bytes, in the order of the plan.
fn stored_components(planned: &mut Planned) -> Vec<&mut ComponentPlan> {
    let lines = planned.menu.tables.iter_mut().flat_map(|table| &mut table.lines);
    lines.flat_map(|line| &mut line.components).filter(|one| one.sheet_size > 0).collect()
}
