//! What stands in an image (001 section 7): prolog, tables, lines, components; and how bytes of it are read.
//! Places are counted from the image's first byte (01 "The four calls", R6).

use crate::fields::Field;
use crate::refusal::*;
use std::ops::Range;

/// 01 Image: the prolog takes 10 bytes and the top table follows at once.
pub const PROLOG: usize = 10;
pub const LONGEST_IMAGE: usize = 32_768;
/// 01, refusal 8.
pub const DEEPEST_TABLE: usize = 8;
pub const MOST_LINES_OF_A_TABLE: usize = 99;
pub const MOST_LINES: usize = 1_024;
pub const MOST_FIELDS: usize = 256;
/// 01, refusal 10.
pub const LONGEST_SHEET: usize = 4_096;

/// A menu as the walk found it: each table as often as it is reached (R11).
pub struct Menu {
    pub delay_to_top: usize,
    pub delay_password: usize,
    pub top: Table,
}

pub struct Table {
    pub place: usize,
    pub title: Range<usize>,
    pub lines: Vec<Line>,
}

pub struct Line {
    pub components: Vec<Component>,
    pub submenu: Option<Submenu>,
}

pub struct Submenu {
    /// Where the password's digits stand, if it is protected.
    pub password: Option<Range<usize>>,
    pub table: Table,
}

pub struct Component {
    /// The image place of its tag.
    pub place: usize,
    pub content: Content,
}

pub enum Content {
    /// A constant string: where its bytes stand.
    Text(Range<usize>),
    Field(Field),
}

impl Component {
    pub fn field(&self) -> Option<&Field> {
        match &self.content {
            Content::Text(_) => None,
            Content::Field(field) => Some(field),
        }
    }

    /// 01 Fields: a trigger counts as editable whatever its edit bit.
    pub fn is_editable(&self) -> bool {
        self.field().is_some_and(Field::is_editable)
    }
}

impl Line {
    /// Which of the line's components can be edited, in order.
    pub fn editables(&self) -> impl Iterator<Item = &Component> {
        self.components.iter().filter(|component| component.is_editable())
    }
}

impl Menu {
    /// Each field in the order of the walk: a line's components before its submenu.
    pub fn fields(&self) -> Vec<(usize, &Field)> {
        let mut found = Vec::new();
        collect_fields(&self.top, &mut found);
        found
    }
}

fn collect_fields<'a>(table: &'a Table, found: &mut Vec<(usize, &'a Field)>) {
    for line in &table.lines {
        for component in &line.components {
            found.extend(component.field().map(|field| (component.place, field)));
        }
        if let Some(submenu) = &line.submenu {
            collect_fields(&submenu.table, found);
        }
    }
}

/// The byte at `place`; 6 beyond the image.
pub fn byte(image: &[u8], place: usize) -> Result<u8, Refusal> {
    image.get(place).copied().ok_or(BEYOND_IMAGE)
}

/// `length` bytes from `place`; 6 beyond the image.
pub fn bytes(image: &[u8], place: usize, length: usize) -> Result<&[u8], Refusal> {
    image.get(place..place + length).ok_or(BEYOND_IMAGE)
}

/// 01 Image: two-byte numbers are low byte first.
pub fn word(image: &[u8], place: usize) -> Result<usize, Refusal> {
    let pair = bytes(image, place, 2)?;
    Ok(usize::from(pair[0]) + 256 * usize::from(pair[1]))
}

/// 001 7.1: where the characters of the Pascal string at `place` stand.
pub fn string(image: &[u8], place: usize) -> Result<Range<usize>, Refusal> {
    let length = usize::from(byte(image, place)?);
    bytes(image, place + 1, length)?;
    Ok(place + 1..place + 1 + length)
}

/// `count` Pascal strings, one behind the other, the first at `place`.
pub fn strings(image: &[u8], place: usize, count: usize) -> Result<Vec<Range<usize>>, Refusal> {
    let mut found = Vec::with_capacity(count);
    let mut next = place;
    for _ in 0..count {
        let one = string(image, next)?;
        next = one.end;
        found.push(one);
    }
    Ok(found)
}

/// R6: menu lines start at an odd offset.
pub fn line_place(after: usize) -> usize {
    after + usize::from(after.is_multiple_of(2))
}

/// R6: line components start at an even offset.
pub fn component_place(after: usize) -> usize {
    after + after % 2
}

/// R6: the byte skipped between `after` and `place`, if any, is zero. Both are inside the image.
pub fn padding_is_zero(image: &[u8], after: usize, place: usize) -> bool {
    image[after..place].iter().all(|&skipped| skipped == 0)
}

/// 01 refusals 2 to 5, in their order.
pub fn check_prolog(image: &[u8]) -> Result<(), Refusal> {
    refuse_if(image.len() < PROLOG || image.len() > LONGEST_IMAGE, IMAGE_LENGTH)?;
    refuse_if(image[0..3] != *b"CMF", IDENTIFIER)?;
    refuse_if(image[3..5] != [0, 4], VERSION)?;
    refuse_if(image[8..10] != [0xFF, 0xFE], BYTE_ORDER)
}

pub fn delay_to_top(image: &[u8]) -> usize {
    usize::from(image[5])
}

pub fn delay_password(image: &[u8]) -> usize {
    usize::from(image[7])
}
