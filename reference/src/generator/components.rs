//! Random components of every kind with good settings. Their var-addr is given out later.

use super::dates::{real_date, unreal_date};
use super::lay::ComponentPlan;
use crate::components::*;
use crate::fields::Kind;
use crate::random::Random;

const EDIT: u8 = 0x20;
const BLINK: u8 = 0x40;

/// The components that the executor covers, as often as they are planned.
const COVERED: [(usize, u8); 20] = [
    (3, UCHAR_DD),
    (5, UCHAR_DDD),
    (3, UCHAR_HH),
    (3, CHAR_SDD),
    (4, CHAR_SDDD),
    (3, UINT2_DDD),
    (3, UINT2_DDDD),
    (4, UINT2_DDDDD),
    (3, UINT2_HHHH),
    (3, INT2_SDDD),
    (3, INT2_SDDDD),
    (8, COUNTER),
    (5, TIME_LONG),
    (4, TIME_SHORT),
    (5, DATE_LONG),
    (4, DATE_SHORT),
    (8, SWITCH),
    (12, OPTION),
    (6, TRIGGER),
    (20, STRING),
];

/// A component of any covered kind; without sheet bytes where `plain`.
pub fn component(random: &mut Random, plain: bool) -> ComponentPlan {
    let code = if plain { *random.pick(&[STRING, STRING, TRIGGER]) } else { random.weighted(&COVERED) };
    component_of(random, code)
}

/// A component of this code.
pub fn component_of(random: &mut Random, code: u8) -> ComponentPlan {
    if code == STRING {
        return constant_string(random);
    }
    let edit = if random.chance(75) { EDIT } else { 0 };
    let blink = if random.chance(10) { BLINK } else { 0 };
    let mut bytes = vec![code | edit | blink];
    bytes.extend(random.bytes(3)); // update, call-addr
    if code == TRIGGER {
        return ComponentPlan { bytes, sheet_size: 0 };
    }
    bytes.extend([0, 0]); // var-addr
    let sheet_size = settings(random, code, &mut bytes);
    ComponentPlan { bytes, sheet_size }
}

/// Writes what follows the var-addr and gives the sheet bytes of a value.
fn settings(random: &mut Random, code: u8, bytes: &mut Vec<u8>) -> usize {
    match code {
        COUNTER => counter(random, bytes),
        TIME_LONG => parts(random, bytes, &[(0, 23), (0, 59), (0, 59)]),
        TIME_SHORT => parts(random, bytes, &[(0, 23), (0, 59)]),
        DATE_LONG => date(random, bytes, true),
        DATE_SHORT => date(random, bytes, false),
        SWITCH => switch(random, bytes),
        OPTION => option(random, bytes),
        _ => integer(random, code, bytes),
    }
}

fn integer(random: &mut Random, code: u8, bytes: &mut Vec<u8>) -> usize {
    let (low, high) = match code {
        UCHAR_DD => (0, 99),
        UCHAR_DDD | UCHAR_HH => (0, 255),
        CHAR_SDD => (-99, 99),
        CHAR_SDDD => (-128, 127),
        UINT2_DDD => (0, 999),
        UINT2_DDDD => (0, 9999),
        UINT2_DDDDD | UINT2_HHHH => (0, 65535),
        INT2_SDDD => (-999, 999),
        _ => (-9999, 9999),
    };
    let size = if code <= CHAR_SDDD { 1 } else { 2 };
    bytes.extend(&random.edgy(low, high).to_le_bytes()[..size]);
    size
}

fn parts(random: &mut Random, bytes: &mut Vec<u8>, ranges: &[(i64, i64)]) -> usize {
    for &(low, high) in ranges {
        bytes.push(random.edgy(low, high) as u8);
    }
    ranges.len()
}

fn date(random: &mut Random, bytes: &mut Vec<u8>, long: bool) -> usize {
    let default = Kind::Date { long }.store(&real_date(random, long));
    bytes.extend(&default);
    default.len()
}

fn counter(random: &mut Random, bytes: &mut Vec<u8>) -> usize {
    let (lowest, highest) = *random.pick(&[(-32768, 32767), (-20, 20), (0, 100), (-100, 0), (-1000, 1000)]);
    let one = random.edgy(lowest, highest);
    let other = random.edgy(lowest, highest);
    let (min, max) = (one.min(other), one.max(other));
    let top_step = *random.pick(&[1, 1, 10, 1000, 32767]);
    let numbers = [min, max, random.edgy(1, top_step), random.edgy(min, max)];
    for number in numbers {
        bytes.extend((number as i16).to_le_bytes());
    }
    let needed = min.to_string().len().max(max.to_string().len());
    let spare = random.weighted(&[(70, 0), (15, 1), (10, 6), (3, 20), (1, 255 - needed)]);
    bytes.push((needed + spare) as u8);
    2
}

fn switch(random: &mut Random, bytes: &mut Vec<u8>) -> usize {
    let bits = random.edgy(1, 32);
    let helps = string_list(random, bits as usize, 255 - 14, 6);
    bytes.push((14 + helps.len()) as u8);
    bytes.push(bits as u8);
    bytes.extend(random.bytes(2)); // on-char, off-char
    bytes.extend((random.edgy(0, (1i64 << bits) - 1) as u32).to_le_bytes());
    bytes.extend(helps);
    4
}

fn option(random: &mut Random, bytes: &mut Vec<u8>) -> usize {
    let count = random.weighted(&[(20, 1), (40, 2), (20, 3), (10, 6), (5, 17), (1, 245)]);
    let longest = *random.pick(&[0, 3, 6, 12, 40]);
    let items = string_list(random, count, 255 - 10, longest);
    bytes.push((10 + items.len()) as u8);
    bytes.push(count as u8);
    bytes.push(longest_string(&items));
    bytes.push(random.edgy(0, count as i64 - 1) as u8);
    bytes.extend(items);
    1
}

/// `count` Pascal strings of at most `longest` characters, all of them in `room` bytes.
fn string_list(random: &mut Random, count: usize, room: usize, longest: usize) -> Vec<u8> {
    let mut list = Vec::new();
    for before in 0..count {
        let others = count - before - 1;
        let left = room - list.len() - others - 1;
        let item = text(random, longest.min(left));
        list.push(item.len() as u8);
        list.extend(item);
    }
    list
}

fn longest_string(list: &[u8]) -> u8 {
    let mut longest = 0;
    let mut at = 0;
    while at < list.len() {
        longest = longest.max(list[at]);
        at += 1 + usize::from(list[at]);
    }
    longest
}

fn constant_string(random: &mut Random) -> ComponentPlan {
    let longest = random.weighted(&[(60, 6), (25, 15), (10, 30), (1, 255)]);
    let words = text(random, longest);
    let blink = if random.chance(10) { BLINK } else { 0 };
    let bytes = [vec![STRING | blink, words.len() as u8], words].concat();
    ComponentPlan { bytes, sheet_size: 0 }
}

/// A text of at most `longest` bytes: mostly printable ones.
pub fn text(random: &mut Random, longest: usize) -> Vec<u8> {
    let length = random.edgy(0, longest as i64) as usize;
    if random.once_in(10) {
        return random.bytes(length);
    }
    (0..length).map(|_| random.within(0x20, 0x7E) as u8).collect()
}

/// A switch or an option that is well laid out for a count that it must not have (R17): refusal 9.
pub fn bad_count(random: &mut Random) -> ComponentPlan {
    let mut bytes = vec![SWITCH | EDIT, 0, 0, 0, 0, 0];
    let bits = *random.pick(&[0, 33, 34, 241]);
    if random.chance(30) {
        bytes[0] = OPTION | EDIT;
        bytes.extend([10, 0, 0, 0]); // length, no items
    } else {
        bytes.extend([14 + bits, bits, b'1', b'0', 0, 0, 0, 0]);
        bytes.extend(vec![0; usize::from(bits)]);
    }
    ComponentPlan { bytes, sheet_size: 0 }
}

/// Gives a date a default that is not real: refusal 9.
pub fn make_unreal(random: &mut Random, component: &mut ComponentPlan) {
    let long = component.bytes[0] & CODE == DATE_LONG;
    let default = Kind::Date { long }.store(&unreal_date(random, long));
    let at = component.bytes.len() - default.len();
    component.bytes[at..].copy_from_slice(&default);
}

/// A form left for later, well laid out (R14): refusal 7.
pub fn later(random: &mut Random) -> ComponentPlan {
    let code = *random.pick(&[FLOAT_SII_F, FLOAT_SIII_F, FCOUNTER, STRING, PASSWORD]);
    let words = text(random, 8);
    let mut bytes = vec![code | EDIT];
    match code {
        FCOUNTER => bytes.extend(random.bytes(22)),
        STRING | PASSWORD => {
            bytes.extend(random.bytes(if code == STRING { 5 } else { 3 }));
            bytes.push(words.len() as u8);
            bytes.extend(words);
        }
        _ => bytes.extend(random.bytes(9)),
    }
    ComponentPlan { bytes, sheet_size: 0 }
}
