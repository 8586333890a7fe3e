//! How a component is laid out by its code (001 7.5, R1 to R3), with refusals 6 and 7 at it.

use crate::fields::{longest, Counter, Field, Format, Kind};
use crate::image::*;
use crate::refusal::*;

/// The parts of a component's tag (001 7.5).
pub const CODE: u8 = 0x1F;
const EDIT: u8 = 0x20;
const LAST: u8 = 0x80;

/// Where every field but a trigger has its var-addr: behind tag, update and call-addr.
const VAR_ADDR: usize = 4;

/// The codes of 001 7.5.
pub const UCHAR_DD: u8 = 0x00;
pub const UCHAR_DDD: u8 = 0x01;
pub const UCHAR_HH: u8 = 0x02;
pub const CHAR_SDD: u8 = 0x03;
pub const CHAR_SDDD: u8 = 0x04;
pub const UINT2_DDD: u8 = 0x05;
pub const UINT2_DDDD: u8 = 0x06;
pub const UINT2_DDDDD: u8 = 0x07;
pub const UINT2_HHHH: u8 = 0x08;
pub const INT2_SDDD: u8 = 0x09;
pub const INT2_SDDDD: u8 = 0x0A;
pub const FLOAT_SII_F: u8 = 0x0B;
pub const FLOAT_SIII_F: u8 = 0x0C;
pub const COUNTER: u8 = 0x0D;
pub const FCOUNTER: u8 = 0x0E;
pub const TIME_LONG: u8 = 0x0F;
pub const TIME_SHORT: u8 = 0x10;
pub const DATE_LONG: u8 = 0x11;
pub const DATE_SHORT: u8 = 0x12;
pub const SWITCH: u8 = 0x13;
pub const OPTION: u8 = 0x14;
pub const STRING: u8 = 0x15;
pub const PASSWORD: u8 = 0x16;
pub const TRIGGER: u8 = 0x17;

/// Bytes before the first string of a switch and of an option (R1).
const SWITCH_BYTES: usize = 14;
const OPTION_BYTES: usize = 10;

/// A component and where it ends.
pub struct Read {
    pub component: Component,
    pub end: usize,
    pub is_last: bool,
}

/// What the bytes behind a tag hold, once all of them are in the image.
struct Body {
    /// None: a form that is left for later, or that breaks what section 7 fixes.
    content: Option<Content>,
    end: usize,
}

/// The component behind `after`: 6 where it needs a byte beyond the image, then 7 (R13, R14).
pub fn read_component(image: &[u8], after: usize) -> Result<Read, Refusal> {
    let place = component_place(after);
    let tag = byte(image, place)?;
    let body = read_body(image, place, tag)?;
    refuse_if(!padding_is_zero(image, after, place), PATTERN)?;
    let content = body.content.ok_or(PATTERN)?;
    Ok(Read { component: Component { place, content }, end: body.end, is_last: tag & LAST != 0 })
}

fn read_body(image: &[u8], place: usize, tag: u8) -> Result<Body, Refusal> {
    let edit = tag & EDIT != 0;
    match tag & CODE {
        code @ UCHAR_DD..=INT2_SDDDD => integer(image, place, edit, code),
        FLOAT_SII_F | FLOAT_SIII_F => later(image, place, 10),
        COUNTER => counter(image, place, edit),
        FCOUNTER => later(image, place, 23),
        TIME_LONG => plain(image, place, edit, Kind::Time { seconds: true }),
        TIME_SHORT => plain(image, place, edit, Kind::Time { seconds: false }),
        DATE_LONG => plain(image, place, edit, Kind::Date { long: true }),
        DATE_SHORT => plain(image, place, edit, Kind::Date { long: false }),
        SWITCH => switch(image, place, edit),
        OPTION => option(image, place, edit),
        STRING if edit => later_with_string(image, place, 6),
        STRING => constant_string(image, place),
        PASSWORD => later_with_string(image, place, 4),
        TRIGGER => trigger(image, place, edit),
        _ => Err(PATTERN), // R14: at its tag
    }
}

/// R14: a form left for later still needs its bytes.
fn later(image: &[u8], place: usize, length: usize) -> Result<Body, Refusal> {
    bytes(image, place, length)?;
    Ok(Body { content: None, end: place + length })
}

/// R3: a variable string or a password component, whose string stands at `place + before`.
fn later_with_string(image: &[u8], place: usize, before: usize) -> Result<Body, Refusal> {
    let text = string(image, place + before)?;
    Ok(Body { content: None, end: text.end })
}

fn constant_string(image: &[u8], place: usize) -> Result<Body, Refusal> {
    let text = string(image, place + 1)?;
    Ok(Body { end: text.end, content: Some(Content::Text(text)) })
}

/// tag, update, call-addr (R3): no sheet bytes.
fn trigger(image: &[u8], place: usize, edit: bool) -> Result<Body, Refusal> {
    bytes(image, place, 4)?;
    let field = Field { kind: Kind::Trigger, edit, var_addr: 0, default: Vec::new() };
    Ok(Body { content: Some(Content::Field(field)), end: place + 4 })
}

/// tag, update, call-addr, var-addr, default: integers, times and dates.
fn plain(image: &[u8], place: usize, edit: bool, kind: Kind) -> Result<Body, Refusal> {
    let default_at = place + VAR_ADDR + 2;
    let end = default_at + kind.sheet_size();
    let field = field_at(image, place, edit, kind, default_at)?;
    Ok(Body { content: Some(Content::Field(field)), end })
}

fn integer(image: &[u8], place: usize, edit: bool, code: u8) -> Result<Body, Refusal> {
    plain(image, place, edit, Kind::Integer(format_of(code)))
}

/// The masks of 001 7.5.1 to 7.5.11.
fn format_of(code: u8) -> Format {
    let (size, signed, digits, base) = match code {
        UCHAR_DD => (1, false, 2, 10),
        UCHAR_DDD => (1, false, 3, 10),
        UCHAR_HH => (1, false, 2, 16),
        CHAR_SDD => (1, true, 2, 10),
        CHAR_SDDD => (1, true, 3, 10),
        UINT2_DDD => (2, false, 3, 10),
        UINT2_DDDD => (2, false, 4, 10),
        UINT2_DDDDD => (2, false, 5, 10),
        UINT2_HHHH => (2, false, 4, 16),
        INT2_SDDD => (2, true, 3, 10),
        _ => (2, true, 4, 10),
    };
    Format { size, signed, digits, base }
}

/// R2: min, max, step, default, field-width behind the var-addr.
fn counter(image: &[u8], place: usize, edit: bool) -> Result<Body, Refusal> {
    let end = place + 15;
    let numbers = bytes(image, place + 6, end - place - 6)?;
    let signed = |at: usize| i64::from(i16::from_le_bytes([numbers[at], numbers[at + 1]]));
    let settings = Counter { min: signed(0), max: signed(2), step: signed(4), width: usize::from(numbers[8]) };
    let field = field_at(image, place, edit, Kind::Counter(settings), place + 12)?;
    Ok(Body { content: Some(Content::Field(field)), end })
}

/// R16, R17: read with as many strings as it says; its length byte must be its size.
fn switch(image: &[u8], place: usize, edit: bool) -> Result<Body, Refusal> {
    bytes(image, place, SWITCH_BYTES)?;
    let bits = usize::from(image[place + 7]);
    let helps = strings(image, place + SWITCH_BYTES, bits)?;
    let end = helps.last().map_or(place + SWITCH_BYTES, |help| help.end);
    let field = field_at(image, place, edit, Kind::Switch { bits }, place + 10)?;
    let as_fixed = usize::from(image[place + 6]) == end - place;
    Ok(Body { content: as_fixed.then_some(Content::Field(field)), end })
}

/// R16, R17: as a switch; its field-width must be that of the longest item.
fn option(image: &[u8], place: usize, edit: bool) -> Result<Body, Refusal> {
    bytes(image, place, OPTION_BYTES)?;
    let count = usize::from(image[place + 7]);
    let items = strings(image, place + OPTION_BYTES, count)?;
    let end = items.last().map_or(place + OPTION_BYTES, |item| item.end);
    let as_fixed = usize::from(image[place + 6]) == end - place && usize::from(image[place + 8]) == longest(&items);
    let field = field_at(image, place, edit, Kind::Option { items }, place + 9)?;
    Ok(Body { content: as_fixed.then_some(Content::Field(field)), end })
}

/// A field with its var-addr; its default is laid out in the image as its value is in the sheet.
fn field_at(image: &[u8], place: usize, edit: bool, kind: Kind, default_at: usize) -> Result<Field, Refusal> {
    let default = bytes(image, default_at, kind.sheet_size())?.to_vec();
    let var_addr = word(image, place + VAR_ADDR)?;
    Ok(Field { kind, edit, var_addr, default })
}
