//! The check of an image with its sheet: refusals 2 to 11 in 01's order. Depth first, lines in order, a line's components before
//! its submenu; the first structure at fault decides, and at one structure the lowest number (01 "Refusal numbers", R13).

use crate::components::read_component;
use crate::fields::Field;
use crate::image::*;
use crate::refusal::*;
use std::ops::Range;

/// The bits of a line's tag (001 7.4).
const FIRST: u8 = 0x01;
const LAST: u8 = 0x02;
const ENABLE: u8 = 0x04;
const SUBMENU: u8 = 0x08;
const PASSWORD: u8 = 0x10;
const NO_MEANING: u8 = 0xE0;

/// 01, refusal 9: a password has 1 to 8 digits.
const LONGEST_PASSWORD: usize = 8;

/// The menu in an accepted image, or the refusal 2 to 11.
pub fn check(image: &[u8], sheet_length: usize) -> Result<Menu, Refusal> {
    check_prolog(image)?;
    let mut walk = Walk { image, sheet_length, lines: 0, fields: 0, taken: Vec::new() };
    let top = walk.table(PROLOG, 1)?;
    Ok(Menu { delay_to_top: delay_to_top(image), delay_password: delay_password(image), top })
}

/// What the walk has counted so far, and the sheet bytes of the fields reached.
struct Walk<'a> {
    image: &'a [u8],
    sheet_length: usize,
    lines: usize,
    fields: usize,
    taken: Vec<Range<usize>>,
}

/// A line's tag and options, as its own tag bits lay them out.
struct LineHead {
    place: usize,
    tag: u8,
    /// Where next-line-ofs leads (R7).
    next: Option<usize>,
    previous_offset: Option<usize>,
    submenu: Option<usize>,
    password: Option<Range<usize>>,
    end: usize,
}

/// Where a line is read, and what the walk knows that it must agree with.
struct LineSpot {
    /// Where it is read: R6's place for a first line, else where next-line-ofs leads (R7).
    place: usize,
    /// The end of the title or of the line before it.
    after: usize,
    /// The place of the line before it in its table.
    previous: Option<usize>,
}

impl Walk<'_> {
    /// `depth` of the top table is 1.
    fn table(&mut self, place: usize, depth: usize) -> Result<Table, Refusal> {
        let title = string(self.image, place)?;
        refuse_if(depth > DEEPEST_TABLE, LIMIT)?; // R15
        let mut spot = LineSpot { place: line_place(title.end), after: title.end, previous: None };
        let mut lines = Vec::new();
        loop {
            let head = self.line_head(&spot, lines.len())?;
            let (components, end) = self.components(head.end)?;
            let submenu = self.submenu(&head, depth)?;
            lines.push(Line { components, submenu });
            match head.next {
                Some(next) => spot = LineSpot { place: next, after: end, previous: Some(head.place) },
                None => return Ok(Table { place, title, lines }),
            }
        }
    }

    /// The line as a structure: padding before it, tag, options, password (R13). `before` lines of its table were reached.
    fn line_head(&mut self, spot: &LineSpot, before: usize) -> Result<LineHead, Refusal> {
        let head = read_line_head(self.image, spot.place)?;
        refuse_if(!agrees(self.image, &head, spot), PATTERN)?;
        self.lines += 1;
        refuse_if(before + 1 > MOST_LINES_OF_A_TABLE || self.lines > MOST_LINES, LIMIT)?;
        let password = head.password.clone().map(|digits| &self.image[digits]);
        refuse_if(password.is_some_and(|digits| !is_password(digits)), SETTINGS)?;
        Ok(head)
    }

    /// The components of a line whose options end at `after`, and the end of the last one.
    fn components(&mut self, after: usize) -> Result<(Vec<Component>, usize), Refusal> {
        let mut components = Vec::new();
        let mut end = after;
        loop {
            let read = read_component(self.image, end)?;
            if let Some(field) = read.component.field() {
                self.field(field)?;
            }
            components.push(read.component);
            end = read.end;
            if read.is_last {
                return Ok((components, end));
            }
        }
    }

    /// Refusals 8 to 11 at a field.
    fn field(&mut self, field: &Field) -> Result<(), Refusal> {
        self.fields += 1;
        refuse_if(self.fields > MOST_FIELDS, LIMIT)?;
        refuse_if(!field.settings_are_good(), SETTINGS)?;
        refuse_if(self.sheet_length > LONGEST_SHEET, BEYOND_SHEET)?; // a trigger too: R18
        let own = field.sheet_bytes();
        refuse_if(!own.is_empty() && own.end > self.sheet_length, BEYOND_SHEET)?;
        refuse_if(self.taken.iter().any(|earlier| overlap(earlier, &own)), SHARED_BYTE)?;
        self.taken.push(own);
        Ok(())
    }

    fn submenu(&mut self, head: &LineHead, depth: usize) -> Result<Option<Submenu>, Refusal> {
        match head.submenu {
            None => Ok(None),
            Some(place) => {
                let table = self.table(place, depth + 1)?;
                Ok(Some(Submenu { password: head.password.clone(), table }))
            }
        }
    }
}

/// R11: tag and options by the tag's own bits. 6 where a byte is missing; 7 at a tag with bits 5 to 7 (R9).
fn read_line_head(image: &[u8], place: usize) -> Result<LineHead, Refusal> {
    let tag = byte(image, place)?;
    refuse_if(tag & NO_MEANING != 0, PATTERN)?;
    let mut end = place + 1;
    let mut word_if = |given: bool| -> Result<Option<usize>, Refusal> {
        if !given {
            return Ok(None);
        }
        end += 2;
        word(image, end - 2).map(Some)
    };
    let next = word_if(tag & LAST == 0)?.map(|offset| place + offset);
    let previous_offset = word_if(tag & FIRST == 0)?;
    word_if(tag & ENABLE != 0)?; // R10: read past
    let submenu = word_if(tag & SUBMENU != 0)?.map(|offset| PROLOG + offset);
    let protected = tag & SUBMENU != 0 && tag & PASSWORD != 0;
    let password = if protected { Some(string(image, end)?) } else { None };
    let end = password.as_ref().map_or(end, |digits| digits.end);
    Ok(LineHead { place, tag, next, previous_offset, submenu, password, end })
}

/// Refusal 7 at a line: place, padding, first mark, pointer back, password bit (R6 to R9).
fn agrees(image: &[u8], head: &LineHead, spot: &LineSpot) -> bool {
    let expected = line_place(spot.after);
    let is_first = spot.previous.is_none();
    head.place == expected
        && padding_is_zero(image, spot.after, expected)
        && (head.tag & FIRST != 0) == is_first
        && head.previous_offset == spot.previous.map(|previous| head.place - previous)
        && (head.tag & PASSWORD == 0 || head.tag & SUBMENU != 0)
}

fn is_password(digits: &[u8]) -> bool {
    (1..=LONGEST_PASSWORD).contains(&digits.len()) && digits.iter().all(u8::is_ascii_digit)
}

fn overlap(one: &Range<usize>, other: &Range<usize>) -> bool {
    one.start < other.end && other.start < one.end
}
