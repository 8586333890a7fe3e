//! The marker (02 No. 1, R40 to R43): marks a sheet by a key, of whose numbers three make a question.

use crate::fields::Field;
use crate::image::Menu;
use crate::refusal::*;
use crate::walk::check;
use std::collections::BTreeSet;

/// A question's numbers in the key: sheet place, right byte, points.
pub const NUMBERS: usize = 3;
/// How many sums there are.
pub const SUMS: usize = 3;
/// Right bytes and points are at most this.
pub const HIGHEST: u16 = 255;

/// Points by what became of their questions.
#[derive(Clone, Copy, Default, PartialEq, Eq, Debug)]
pub struct Sums {
    pub right: u32,
    pub wrong: u32,
    pub blank: u32,
}

#[derive(Clone, Copy, PartialEq, Eq, Debug)]
pub enum Verdict {
    Right,
    Wrong,
    Blank,
}

/// A question of a good key, with the default of its field.
#[derive(Clone, Copy, Debug)]
pub struct Question {
    pub place: usize,
    pub right: u8,
    pub points: u8,
    pub default: u8,
}

/// The causes of refusal 15. They are one set, so which of several is named can't show (R40).
#[derive(Clone, Copy, PartialEq, Eq, Debug)]
pub enum Fault {
    Length,
    Place(usize),
    Twice,
    RightOver255,
    RightIsDefault,
    PointsOver255,
}

/// Mark: 2 to 11, then 15. No sums where it is refused.
pub fn mark(image: &[u8], sheet: &[u8], key: &[u16]) -> Result<Sums, Refusal> {
    let menu = check(image, sheet.len())?;
    let questions = questions(&menu, key).map_err(|_| KEY)?;
    Ok(sums(&questions, sheet))
}

/// The same into a lent list, as the C library has it: 25, found last, where that is not one of three numbers.
pub fn mark_into(image: &[u8], sheet: &[u8], key: &[u16], lent: &mut [u32]) -> Refusal {
    match mark(image, sheet, key) {
        Err(refusal) => refusal,
        Ok(_) if lent.len() != SUMS => ROOM,
        Ok(sums) => {
            lent.copy_from_slice(&[sums.right, sums.wrong, sums.blank]);
            ACCEPTED
        }
    }
}

/// The questions of a key in its order, or what is wrong with it.
pub fn questions(menu: &Menu, key: &[u16]) -> Result<Vec<Question>, Fault> {
    let (triples, rest) = key.as_chunks::<NUMBERS>();
    if !rest.is_empty() {
        return Err(Fault::Length);
    }
    let fields = menu.fields();
    let mut places = BTreeSet::new();
    let mut questions = Vec::new();
    for triple in triples {
        let question = question(&fields, triple)?;
        if !places.insert(question.place) {
            return Err(Fault::Twice);
        }
        questions.push(question);
    }
    Ok(questions)
}

/// One question by itself.
fn question(fields: &[(usize, &Field)], &[place, right, points]: &[u16; NUMBERS]) -> Result<Question, Fault> {
    let place = usize::from(place);
    let default = one_byte_default(fields, place).ok_or(Fault::Place(place))?;
    if right > HIGHEST {
        return Err(Fault::RightOver255);
    }
    if right == u16::from(default) {
        return Err(Fault::RightIsDefault);
    }
    if points > HIGHEST {
        return Err(Fault::PointsOver255);
    }
    Ok(Question { place, right: right as u8, points: points as u8, default })
}

/// The default of the one-byte field at a sheet place, whether or not it can be edited (R41).
fn one_byte_default(fields: &[(usize, &Field)], place: usize) -> Option<u8> {
    let (_, field) = fields.iter().find(|(_, field)| field.kind.sheet_size() == 1 && field.var_addr == place)?;
    Some(field.default[0])
}

impl Question {
    /// The default is blank before anything else is asked; a byte out of the field's range counts like any other (R42).
    pub fn verdict(&self, sheet: &[u8]) -> Verdict {
        match sheet[self.place] {
            byte if byte == self.default => Verdict::Blank,
            byte if byte == self.right => Verdict::Right,
            _ => Verdict::Wrong,
        }
    }
}

fn sums(questions: &[Question], sheet: &[u8]) -> Sums {
    let mut sums = Sums::default();
    for question in questions {
        let sum = match question.verdict(sheet) {
            Verdict::Right => &mut sums.right,
            Verdict::Wrong => &mut sums.wrong,
            Verdict::Blank => &mut sums.blank,
        };
        *sum += u32::from(question.points);
    }
    sums
}
