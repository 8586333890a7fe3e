//! The four calls of 01, each with its checks in their order (R20). Nothing refused alters a byte.

use crate::fields::Kind;
use crate::image::Menu;
use crate::keys::LAST_EVENT;
use crate::picture::{edit_cursor, picture as picture_of};
use crate::refusal::*;
use crate::session::{has_legal_shape, Answer, Session};
use crate::walk::check;
use std::ops::Range;

/// Open: 1, then 2 to 11. Writes each field's default; sheet bytes of no field stay.
pub fn open(image: &[u8], sheet: &mut [u8], columns: usize, lines: usize) -> (Refusal, Session) {
    match checked_open(image, sheet.len(), columns, lines) {
        Err(refusal) => (refusal, Session::closed()),
        Ok(menu) => {
            for (_, field) in menu.fields() {
                field.write(sheet, &field.default);
            }
            (ACCEPTED, Session::opened(&menu, columns, lines))
        }
    }
}

fn checked_open(image: &[u8], sheet_length: usize, columns: usize, lines: usize) -> Result<Menu, Refusal> {
    refuse_if(!has_legal_shape(columns, lines), SHAPE)?;
    check(image, sheet_length)
}

/// Event: 2 to 11, 12, 13. A refused event hands back the session it got.
pub fn event(image: &[u8], sheet: &mut [u8], session: &Session, event: usize) -> (Session, Answer) {
    match checked_event(image, sheet.len(), session, event) {
        Err(refusal) => (session.clone(), Answer::Refused(refusal)),
        Ok(menu) => session.step(image, &menu, sheet, event),
    }
}

fn checked_event(image: &[u8], sheet_length: usize, session: &Session, event: usize) -> Result<Menu, Refusal> {
    let menu = check(image, sheet_length)?;
    refuse_if(!session.fits(&menu), SESSION)?;
    refuse_if(event > LAST_EVENT, EVENT)?;
    Ok(menu)
}

/// Draw: 2 to 11, 12, 1. Fills the picture and answers row and column of the edit cursor.
pub fn draw(image: &[u8], sheet: &[u8], session: &Session, picture: &mut [u8]) -> (Refusal, Option<(usize, usize)>) {
    match checked_draw(image, sheet.len(), session, picture.len()) {
        Err(refusal) => (refusal, None),
        Ok(menu) => {
            picture.copy_from_slice(&picture_of(image, &menu, sheet, session));
            (ACCEPTED, edit_cursor(&menu, session))
        }
    }
}

fn checked_draw(image: &[u8], sheet_length: usize, session: &Session, picture_length: usize) -> Result<Menu, Refusal> {
    let menu = check(image, sheet_length)?;
    refuse_if(!session.fits(&menu), SESSION)?;
    refuse_if(picture_length != session.columns * session.lines, SHAPE)?;
    Ok(menu)
}

/// Option text: 2 to 11, 14. Where the item's own bytes stand in the image; an empty part where refused.
pub fn option_text(image: &[u8], sheet: &[u8], place: usize, item: usize) -> (Refusal, Range<usize>) {
    match checked_option_text(image, sheet.len(), place, item) {
        Err(refusal) => (refusal, 0..0),
        Ok(text) => (ACCEPTED, text),
    }
}

fn checked_option_text(image: &[u8], sheet_length: usize, place: usize, item: usize) -> Result<Range<usize>, Refusal> {
    let menu = check(image, sheet_length)?;
    let fields = menu.fields();
    let (_, field) = fields.iter().find(|(at, _)| *at == place).ok_or(NO_ITEM)?;
    match &field.kind {
        Kind::Option { items } => items.get(item).cloned().ok_or(NO_ITEM),
        _ => Err(NO_ITEM),
    }
}
