//! Fields (01 "Fields"): kinds, ranges, the value in the sheet, and the working cells of a visit.
//!
//! A value is a list of parts in the order shown: hours, minutes, seconds; year, month, day; one part for the other kinds, none
//! for a trigger. The working cells of a visit are sign and digits of an integer, the bits of a switch with the highest stated one
//! first, and for the other kinds the parts themselves (a counter's counted from `COUNTER_ZERO`).

use crate::calendar::month_end;
use crate::layout::{COUNTER_ZERO, MINUS, PLUS};
use std::ops::{Range, RangeInclusive};

pub type Value = Vec<i64>;
pub type Bounds = RangeInclusive<i64>;

/// A switch stores 32 bits; no field has more working cells.
pub const MOST_BITS: usize = 32;
pub const MOST_CELLS: usize = MOST_BITS;

/// The parts of a date, in the order shown.
pub const YEAR: usize = 0;
pub const MONTH: usize = 1;
pub const DAY: usize = 2;

/// R51: short years are counted from here.
const SHORT_YEARS_FROM: i64 = 2000;

/// Where a value is out of its range, every cell of the field shows this.
const OUT_OF_RANGE: u8 = b'#';

pub struct Field {
    pub kind: Kind,
    /// Its edit bit.
    pub edit: bool,
    /// Its first byte in the sheet; 0 for a trigger, which has none.
    pub var_addr: usize,
    /// Its default as the sheet stores it.
    pub default: Vec<u8>,
}

pub enum Kind {
    Integer(Format),
    Counter(Counter),
    Time { seconds: bool },
    Date { long: bool },
    Switch { bits: usize },
    Option { items: Vec<Range<usize>> },
    Trigger,
}

/// An integer's format: bytes stored, whether a sign cell comes first, digit cells and their base.
#[derive(Clone, Copy)]
pub struct Format {
    pub size: usize,
    pub signed: bool,
    pub digits: usize,
    pub base: i64,
}

#[derive(Clone, Copy)]
pub struct Counter {
    pub min: i64,
    pub max: i64,
    pub step: i64,
    pub width: usize,
}

impl Format {
    /// 01 Fields: what can both be stored and shown in the cells.
    fn bounds(self) -> Bounds {
        let shown = self.base.pow(self.digits as u32) - 1;
        let patterns = 1i64 << (8 * self.size);
        if self.signed {
            (-shown).max(-patterns / 2)..=shown.min(patterns / 2 - 1)
        } else {
            0..=shown.min(patterns - 1)
        }
    }

    fn cells(self) -> usize {
        self.digits + usize::from(self.signed)
    }

    pub fn is_sign(self, cell: usize) -> bool {
        self.signed && cell == 0
    }

    fn to_cells(self, value: i64) -> Vec<i64> {
        let mut cells = Vec::new();
        if self.signed {
            cells.push(if value < 0 { MINUS } else { PLUS });
        }
        let digit = |weight: usize| value.abs() / self.base.pow(weight as u32) % self.base;
        cells.extend((0..self.digits).rev().map(digit));
        cells
    }

    /// Minus zero gives 0.
    fn value_of(self, cells: &[i64]) -> i64 {
        let digits = &cells[usize::from(self.signed)..];
        let size = digits.iter().fold(0, |higher, digit| higher * self.base + digit);
        if self.signed && cells[0] == MINUS {
            -size
        } else {
            size
        }
    }
}

impl Counter {
    fn settings_are_good(self, default: i64) -> bool {
        let fits = |number: i64| number.to_string().len() <= self.width;
        self.min <= default && default <= self.max && self.step >= 1 && fits(self.min) && fits(self.max)
    }
}

impl Kind {
    /// How many bytes of the sheet a value takes (001 7.5).
    pub fn sheet_size(&self) -> usize {
        match self {
            Kind::Integer(format) => format.size,
            Kind::Counter(_) => 2,
            Kind::Time { seconds } => 2 + usize::from(*seconds),
            Kind::Date { long } => 3 + usize::from(*long),
            Kind::Switch { .. } => 4,
            Kind::Option { .. } => 1,
            Kind::Trigger => 0,
        }
    }

    /// The range of each part of a value. A switch's stated bits all on is its highest value; the days of a date's own month are
    /// left to `in_range`.
    pub fn bounds(&self) -> Vec<Bounds> {
        match self {
            Kind::Integer(format) => vec![format.bounds()],
            Kind::Counter(counter) => vec![counter.min..=counter.max],
            Kind::Time { seconds: true } => vec![0..=23, 0..=59, 0..=59],
            Kind::Time { seconds: false } => vec![0..=23, 0..=59],
            Kind::Date { long } => vec![0..=if *long { 9999 } else { 99 }, 1..=12, 1..=31],
            Kind::Switch { bits } => vec![0..=(1i64 << (*bits).min(MOST_BITS)) - 1],
            Kind::Option { items } => vec![0..=items.len() as i64 - 1],
            Kind::Trigger => vec![],
        }
    }

    /// 01 Fields; 02 No. 3: a date is also a real one.
    pub fn in_range(&self, value: &[i64]) -> bool {
        all_within(&self.bounds(), value) && self.last_day(value).is_none_or(|end| value[DAY] <= end)
    }

    /// 02 No. 3: where the month of a date ends; none for the other kinds.
    pub fn last_day(&self, value: &[i64]) -> Option<i64> {
        match self {
            Kind::Date { long: true } => Some(month_end(value[YEAR], value[MONTH])),
            Kind::Date { long: false } => Some(month_end(SHORT_YEARS_FROM + value[YEAR], value[MONTH])),
            _ => None,
        }
    }

    /// The value that these sheet bytes hold. Dates are stored day, month, year (R5).
    pub fn load(&self, bytes: &[u8]) -> Value {
        let number = |from: usize, to: usize| bytes[from..to].iter().rev().fold(0, |high, &low| high * 256 + i64::from(low));
        match self {
            Kind::Integer(format) if format.signed => vec![signed(number(0, format.size), format.size)],
            Kind::Counter(_) => vec![signed(number(0, 2), 2)],
            Kind::Time { .. } => bytes.iter().map(|&part| i64::from(part)).collect(),
            Kind::Date { .. } => vec![number(2, bytes.len()), number(1, 2), number(0, 1)],
            Kind::Trigger => vec![],
            _ => vec![number(0, bytes.len())],
        }
    }

    /// The sheet bytes of a value in range.
    pub fn store(&self, value: &[i64]) -> Vec<u8> {
        let low_first = |part: i64, size: usize| part.to_le_bytes()[..size].to_vec();
        let size = self.sheet_size();
        match self {
            Kind::Time { .. } => value.iter().map(|&part| part as u8).collect(),
            Kind::Date { .. } => [vec![value[2] as u8, value[1] as u8], low_first(value[0], size - 2)].concat(),
            Kind::Trigger => vec![],
            _ => low_first(value[0], size),
        }
    }

    /// The working cells that a visit starts with.
    pub fn to_cells(&self, value: &[i64]) -> Vec<i64> {
        match self {
            Kind::Integer(format) => format.to_cells(value[0]),
            Kind::Counter(_) => vec![value[0] + COUNTER_ZERO],
            Kind::Switch { bits } => (0..*bits).rev().map(|bit| value[0] >> bit & 1).collect(),
            _ => value.to_vec(),
        }
    }

    pub fn value_of(&self, cells: &[i64]) -> Value {
        match self {
            Kind::Integer(format) => vec![format.value_of(cells)],
            Kind::Counter(_) => vec![cells[0] - COUNTER_ZERO],
            Kind::Switch { .. } => vec![cells.iter().fold(0, |higher, bit| 2 * higher + bit)],
            _ => cells.to_vec(),
        }
    }

    /// The range of each working cell: signs, digits and bits; else the parts of the value.
    pub fn cell_bounds(&self) -> Vec<Bounds> {
        match self {
            Kind::Integer(format) => {
                (0..format.cells()).map(|cell| if format.is_sign(cell) { MINUS..=PLUS } else { 0..=format.base - 1 }).collect()
            }
            Kind::Counter(counter) => vec![counter.min + COUNTER_ZERO..=counter.max + COUNTER_ZERO],
            Kind::Switch { bits } => vec![0..=1; *bits],
            _ => self.bounds(),
        }
    }

    /// The same in a visit. In the day part of a date the day ends with its month; before, it is 1 to 31 (R49, R50).
    pub fn visit_bounds(&self, chosen: usize, cells: &[i64]) -> Vec<Bounds> {
        let mut bounds = self.cell_bounds();
        if let (DAY, Some(end)) = (chosen, self.last_day(cells)) {
            bounds[DAY] = 1..=end;
        }
        bounds
    }

    /// How many cells or parts a visit can choose among; the kinds without a choice have one.
    pub fn choices(&self) -> usize {
        match self {
            Kind::Trigger => 1,
            _ => self.cell_bounds().len(),
        }
    }

    /// How many cells of the picture it takes.
    pub fn width(&self) -> usize {
        match self {
            Kind::Integer(format) => format.cells(),
            Kind::Counter(counter) => counter.width,
            Kind::Time { seconds } => {
                if *seconds {
                    8
                } else {
                    5
                }
            }
            Kind::Date { long } => {
                if *long {
                    10
                } else {
                    8
                }
            }
            Kind::Switch { bits } => *bits,
            Kind::Option { items } => longest(items),
            Kind::Trigger => 3,
        }
    }

    /// What working cells look like. The items of an option stand in the image.
    pub fn show(&self, image: &[u8], cells: &[i64]) -> Vec<u8> {
        match self {
            Kind::Integer(format) => (0..cells.len()).map(|at| integer_cell(*format, at, cells[at])).collect(),
            Kind::Counter(counter) => format!("{:>1$}", cells[0] - COUNTER_ZERO, counter.width).into_bytes(),
            Kind::Time { .. } => two_digits(cells).join(":").into_bytes(),
            Kind::Date { long: true } => {
                [vec![format!("{:04}", cells[0])], two_digits(&cells[1..])].concat().join("-").into_bytes()
            }
            Kind::Date { long: false } => two_digits(cells).join("-").into_bytes(),
            Kind::Switch { .. } => cells.iter().map(|&bit| if bit == 1 { b'1' } else { b'0' }).collect(),
            Kind::Option { items } => padded(&image[items[cells[0] as usize].clone()], self.width()),
            Kind::Trigger => b"[*]".to_vec(),
        }
    }

    /// 01 Picture, R32: where the edit cursor stands among the field's own cells.
    pub fn cursor_cell(&self, chosen: usize) -> usize {
        match self {
            Kind::Integer(_) | Kind::Switch { .. } => chosen,
            Kind::Counter(counter) => counter.width - 1,
            Kind::Time { .. } | Kind::Date { long: false } => 3 * chosen,
            Kind::Date { long: true } => [0, 5, 8][chosen],
            Kind::Option { .. } => 0,
            Kind::Trigger => 1,
        }
    }
}

impl Field {
    pub fn is_editable(&self) -> bool {
        self.edit || matches!(self.kind, Kind::Trigger)
    }

    /// The field's own bytes in the sheet.
    pub fn sheet_bytes(&self) -> Range<usize> {
        self.var_addr..self.var_addr + self.kind.sheet_size()
    }

    /// Refusal 9 (R19).
    pub fn settings_are_good(&self) -> bool {
        let default = self.kind.load(&self.default);
        match &self.kind {
            Kind::Counter(counter) => counter.settings_are_good(default[0]),
            Kind::Switch { bits } => (1..=MOST_BITS).contains(bits) && self.kind.in_range(&default),
            _ => self.kind.in_range(&default),
        }
    }

    /// The value in the sheet, if it is in range.
    pub fn read(&self, sheet: &[u8]) -> Option<Value> {
        let value = self.kind.load(&sheet[self.sheet_bytes()]);
        self.kind.in_range(&value).then_some(value)
    }

    pub fn write(&self, sheet: &mut [u8], bytes: &[u8]) {
        sheet[self.sheet_bytes()].copy_from_slice(bytes);
    }

    /// 01 Fields: a visit starts from the sheet's value, or from the default where that is out of range.
    pub fn starting_cells(&self, sheet: &[u8]) -> Vec<i64> {
        let value = self.read(sheet).unwrap_or_else(|| self.kind.load(&self.default));
        self.kind.to_cells(&value)
    }

    /// What the sheet's value looks like.
    pub fn show_stored(&self, image: &[u8], sheet: &[u8]) -> Vec<u8> {
        match self.read(sheet) {
            Some(value) => self.kind.show(image, &self.kind.to_cells(&value)),
            None => vec![OUT_OF_RANGE; self.kind.width()],
        }
    }
}

pub fn all_within(bounds: &[Bounds], numbers: &[i64]) -> bool {
    bounds.len() == numbers.len() && bounds.iter().zip(numbers).all(|(bound, number)| bound.contains(number))
}

/// Two's complement of `size` bytes.
fn signed(pattern: i64, size: usize) -> i64 {
    let half = 1i64 << (8 * size - 1);
    if pattern < half {
        pattern
    } else {
        pattern - 2 * half
    }
}

fn integer_cell(format: Format, at: usize, cell: i64) -> u8 {
    if format.is_sign(at) {
        return if cell == MINUS { b'-' } else { b'+' };
    }
    b"0123456789ABCDEF"[cell as usize]
}

fn two_digits(parts: &[i64]) -> Vec<String> {
    parts.iter().map(|part| format!("{part:02}")).collect()
}

/// The length of the longest item, 0 without items (R16).
pub fn longest(items: &[Range<usize>]) -> usize {
    items.iter().map(|item| item.len()).max().unwrap_or(0)
}

/// Cut or padded with blanks on the right.
pub fn padded(text: &[u8], width: usize) -> Vec<u8> {
    let blanks = std::iter::repeat(&b' ');
    text.iter().chain(blanks).take(width).copied().collect()
}
