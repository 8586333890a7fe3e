//! Keys to mark a sheet by: good ones mostly, about some of the image's one-byte fields in any order, else with one of the causes
//! that 02 No. 1 lists.

use super::flaws::contents;
use crate::fields::{Field, Kind};
use crate::image::{word, LONGEST_SHEET};
use crate::marker::{HIGHEST, NUMBERS};
use crate::random::Random;
use crate::walk::check;

/// A question as the key has it: sheet place, right byte, points.
type Triple = [u16; NUMBERS];

#[derive(Clone, Copy)]
enum Flaw {
    Length,
    NoField,
    WiderField,
    PastSheet,
    ImagePlace,
    Trigger,
    Twice,
    RightOver255,
    RightIsDefault,
    PointsOver255,
}

const FLAWS: [Flaw; 10] = [
    Flaw::Length,
    Flaw::NoField,
    Flaw::WiderField,
    Flaw::PastSheet,
    Flaw::ImagePlace,
    Flaw::Trigger,
    Flaw::Twice,
    Flaw::RightOver255,
    Flaw::RightIsDefault,
    Flaw::PointsOver255,
];

/// What a key is about.
struct Paper<'a> {
    image: &'a [u8],
    sheet: &'a [u8],
    /// The fields with their image places.
    fields: Vec<(usize, &'a Field)>,
}

/// A key for this sheet. Where the image is refused only for its sheet, the key is one for a longer sheet.
pub fn any_key(random: &mut Random, image: &[u8], sheet: &[u8]) -> Vec<u16> {
    match check(image, sheet.len()).or_else(|_| check(image, LONGEST_SHEET)) {
        Err(_) => any_numbers(random),
        Ok(menu) => key_of(random, &Paper { image, sheet, fields: menu.fields() }),
    }
}

fn key_of(random: &mut Random, paper: &Paper) -> Vec<u16> {
    let mut questions = good_questions(random, paper);
    if random.chance(60) {
        return questions.concat();
    }
    if questions.is_empty() {
        questions.push([any_number(random), any_number(random), points(random)]);
    }
    match *random.pick(&FLAWS) {
        Flaw::Length => another_length(random, questions.concat()),
        Flaw::Twice => {
            repeat(random, paper, &mut questions);
            questions.concat()
        }
        flaw => {
            let which = random.below(questions.len());
            spoil(random, paper, &mut questions[which], flaw);
            questions.concat()
        }
    }
}

/// A sheet with about half of its bytes changed, so that answers are right, wrong and blank by one key.
pub fn answered(random: &mut Random, sheet: &[u8]) -> Vec<u8> {
    let others = contents(random, sheet.len());
    sheet.iter().zip(others).map(|(&left, other)| if random.chance(50) { left } else { other }).collect()
}

/// Numbers for an image that is refused whatever the key is.
fn any_numbers(random: &mut Random) -> Vec<u16> {
    let length = random.below(3 * NUMBERS + 2);
    (0..length).map(|_| any_number(random)).collect()
}

fn any_number(random: &mut Random) -> u16 {
    match random.below(3) {
        0 => random.below(20) as u16,
        1 => u16::from(random.byte()),
        _ => random.number() as u16,
    }
}

/// Questions about all one-byte fields or some of them, in any order.
fn good_questions(random: &mut Random, paper: &Paper) -> Vec<Triple> {
    let mut asked = fields_of(paper, |size| size == 1);
    random.shuffle(&mut asked);
    let some = random.edgy(1, asked.len().max(1) as i64) as usize;
    asked.truncate(random.weighted(&[(40, asked.len()), (55, some), (5, 0)]));
    asked.into_iter().map(|field| question(random, paper, field)).collect()
}

/// The fields of these sizes.
fn fields_of<'a>(paper: &Paper<'a>, is_asked: impl Fn(usize) -> bool) -> Vec<&'a Field> {
    paper.fields.iter().map(|(_, field)| *field).filter(|field| is_asked(field.kind.sheet_size())).collect()
}

fn question(random: &mut Random, paper: &Paper, field: &Field) -> Triple {
    [field.var_addr as u16, right_byte(random, paper, field), points(random)]
}

/// The sheet's byte in half of the cases, and never the default.
fn right_byte(random: &mut Random, paper: &Paper, field: &Field) -> u16 {
    let default = field.default[0];
    let stored = paper.sheet.get(field.var_addr).copied().unwrap_or(0);
    let near = *random.pick(&[0, 1, 99, 127, 128, 254, 255, default.wrapping_add(1), default.wrapping_sub(1)]);
    let any = random.byte();
    let right = random.weighted(&[(50, stored), (20, near), (30, any)]);
    u16::from(if right == default { default ^ 1 } else { right })
}

fn points(random: &mut Random) -> u16 {
    let any = u16::from(random.byte());
    *random.pick(&[0, 1, 254, 255, any, any])
}

/// One or two numbers too many or too few.
fn another_length(random: &mut Random, mut key: Vec<u16>) -> Vec<u16> {
    let difference = random.within(1, 2) as usize;
    if random.chance(50) {
        key.truncate(key.len() - difference);
    } else {
        key.extend((0..difference).map(|_| any_number(random)));
    }
    key
}

/// Asks once more about a place, with the same right byte and points or with others.
fn repeat(random: &mut Random, paper: &Paper, questions: &mut Vec<Triple>) {
    let mut again = *random.pick(questions);
    if let (true, Some(field)) = (random.chance(70), field_at(paper, again[0])) {
        again = question(random, paper, field);
    }
    questions.insert(random.below(questions.len() + 1), again);
}

/// The one-byte field at a sheet place.
fn field_at<'a>(paper: &Paper<'a>, place: u16) -> Option<&'a Field> {
    fields_of(paper, |size| size == 1).into_iter().find(|field| field.var_addr == usize::from(place))
}

/// Changes one number of a question.
fn spoil(random: &mut Random, paper: &Paper, question: &mut Triple, flaw: Flaw) {
    let [place, right, points] = *question;
    match flaw {
        Flaw::RightOver255 => question[1] = over_255(random, right),
        Flaw::RightIsDefault => question[1] = field_at(paper, place).map_or(right, |field| u16::from(field.default[0])),
        Flaw::PointsOver255 => question[2] = over_255(random, points),
        _ => question[0] = wrong_place(random, paper, place, flaw),
    }
}

/// The same low byte at times, so that a number cut to a byte would pass.
fn over_255(random: &mut Random, number: u16) -> u16 {
    let high = random.within(1, 255) as u16;
    *random.pick(&[HIGHEST + 1, HIGHEST + 2, u16::MAX, 256 + number % 256, 256 * high + number % 256])
}

/// A place that is not one of a one-byte field; past the sheet where there is none of the kind asked for.
fn wrong_place(random: &mut Random, paper: &Paper, place: u16, flaw: Flaw) -> u16 {
    let places: Vec<usize> = match flaw {
        Flaw::NoField => places_of_no_field(paper),
        Flaw::WiderField => fields_of(paper, |size| size > 1).into_iter().flat_map(Field::sheet_bytes).collect(),
        Flaw::ImagePlace => paper.fields.iter().map(|(place, _)| *place).collect(),
        Flaw::Trigger => trigger_places(paper),
        _ => vec![],
    };
    if !places.is_empty() {
        return *random.pick(&places) as u16;
    }
    let (length, longest) = (paper.sheet.len() as u16, LONGEST_SHEET as u16);
    *random.pick(&[length, length.wrapping_add(1), longest, place.wrapping_add(256), place.wrapping_add(longest), u16::MAX])
}

fn places_of_no_field(paper: &Paper) -> Vec<usize> {
    let is_taken = |place: &usize| paper.fields.iter().any(|(_, field)| field.sheet_bytes().contains(place));
    (0..paper.sheet.len()).filter(|place| !is_taken(place)).collect()
}

/// What could be taken for the sheet place of a trigger, which has none: 0, its tag's place, the bytes where others have theirs.
fn trigger_places(paper: &Paper) -> Vec<usize> {
    let triggers = paper.fields.iter().filter(|(_, field)| matches!(field.kind, Kind::Trigger));
    triggers.flat_map(|(tag, _)| [0, *tag, word(paper.image, tag + 4).unwrap_or(0)]).collect()
}
