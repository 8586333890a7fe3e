//! Records of sittings (02 No. 2, R44 to R47): numbers in groups of seven bits, recording a list of events, playing a record.

use crate::calls::{event, open};
use crate::keys::LAST_EVENT;
use crate::layout::LAYOUT;
use crate::refusal::*;
use crate::session::Session;

/// The form number of the records written and played here.
pub const FORM: usize = 1;
/// No number of a record is higher, so there are no more events either.
pub const HIGHEST_NUMBER: usize = 65_535;
pub const MOST_GROUPS: usize = 3;
/// A group holds seven bits; its top bit says that another one follows.
pub const GROUP: usize = 128;
pub const ANOTHER: u8 = 0x80;

/// How a number is broken (R44). Missing: there is no byte of it.
#[derive(Clone, Copy, PartialEq, Eq, PartialOrd, Ord, Debug)]
pub enum Broken {
    Missing,
    CutOff,
    LeadingZero,
    FourthGroup,
    TooHigh,
}

/// What is wrong with a record by itself, in the order in which it is found (R45).
#[derive(Clone, Copy, PartialEq, Eq, PartialOrd, Ord, Debug)]
pub enum Fault {
    FormNumber(Broken),
    OtherForm,
    Count(Broken),
    Number(Broken),
    BytesOver,
    Event,
}

/// What playing a record comes to.
#[derive(Clone, PartialEq, Eq, Debug)]
pub struct Replay {
    pub refusal: Refusal,
    /// How many events were played; 0 where it is refused.
    pub events: usize,
    pub session: Session,
}

impl Fault {
    pub fn refusal(self) -> Refusal {
        match self {
            Fault::OtherForm => OTHER_FORM,
            Fault::Event => EVENT,
            _ => RECORD,
        }
    }
}

impl Replay {
    /// Any refusal gives a closed session.
    fn refused(refusal: Refusal) -> Replay {
        Replay { refusal, events: 0, session: Session::closed() }
    }
}

/// Highest group first, the top bit set on all but the last, no leading zero group; 0 is one group.
pub fn write_number(number: usize) -> Vec<u8> {
    let mut groups = vec![(number % GROUP) as u8];
    let mut higher = number / GROUP;
    while higher > 0 {
        groups.push(ANOTHER | (higher % GROUP) as u8);
        higher /= GROUP;
    }
    groups.reverse();
    groups
}

/// The number at the start of these bytes, and the bytes behind it.
pub fn read_number(bytes: &[u8]) -> Result<(usize, &[u8]), Broken> {
    let first = *bytes.first().ok_or(Broken::Missing)?;
    if first == ANOTHER {
        return Err(Broken::LeadingZero);
    }
    let mut number = 0;
    for at in 0..MOST_GROUPS {
        let group = *bytes.get(at).ok_or(Broken::CutOff)?;
        number = GROUP * number + usize::from(group & !ANOTHER);
        if group & ANOTHER == 0 {
            return if number <= HIGHEST_NUMBER { Ok((number, &bytes[at + 1..])) } else { Err(Broken::TooHigh) };
        }
    }
    Err(Broken::FourthGroup)
}

/// The record of these events: form number, how many there are, the events.
pub fn write_record(events: &[u8]) -> Vec<u8> {
    let numbers = [FORM, events.len()].into_iter().chain(events.iter().map(|&event| usize::from(event)));
    numbers.flat_map(write_number).collect()
}

/// The events of a record. The whole of it is looked through before any event is found bad (R45).
pub fn read_record(record: &[u8]) -> Result<Vec<usize>, Fault> {
    let (form, rest) = read_number(record).map_err(Fault::FormNumber)?;
    if form != FORM {
        return Err(Fault::OtherForm);
    }
    let (count, mut rest) = read_number(rest).map_err(Fault::Count)?;
    let mut events = Vec::new();
    for _ in 0..count {
        let (event, behind) = read_number(rest).map_err(Fault::Number)?;
        events.push(event);
        rest = behind;
    }
    if !rest.is_empty() {
        return Err(Fault::BytesOver);
    }
    if events.iter().any(|&event| event > LAST_EVENT) {
        return Err(Fault::Event);
    }
    Ok(events)
}

/// Record: 16, 13, 25. Answers the record's length, 0 where it is refused; nothing is written then, else the room's rest stays.
pub fn record(events: &[u8], room: &mut [u8]) -> (Refusal, usize) {
    match checked_record(events, room.len()) {
        Err(refusal) => (refusal, 0),
        Ok(written) => {
            room[..written.len()].copy_from_slice(&written);
            (ACCEPTED, written.len())
        }
    }
}

fn checked_record(events: &[u8], room: usize) -> Result<Vec<u8>, Refusal> {
    refuse_if(events.len() > HIGHEST_NUMBER, RECORD)?;
    refuse_if(events.iter().any(|&event| usize::from(event) > LAST_EVENT), EVENT)?;
    let written = write_record(events);
    refuse_if(written.len() > room, ROOM)?;
    Ok(written)
}

/// Play: 16, 17, 16, 13, 25, then Open's 1 and 2 to 11 (R45). Answers go to the start of the lent list and its rest stays; where
/// it is refused, sheet and list stay as they were. After Open no event is refused (R47).
pub fn play(image: &[u8], sheet: &mut [u8], columns: usize, lines: usize, record: &[u8], answers: &mut [u32]) -> Replay {
    let events = match checked_record_to_play(record, answers.len()) {
        Err(refusal) => return Replay::refused(refusal),
        Ok(events) => events,
    };
    let (refusal, mut session) = open(image, sheet, columns, lines);
    if refusal != ACCEPTED {
        return Replay::refused(refusal);
    }
    for (&number, lent) in events.iter().zip(answers) {
        let (next, answer) = event(image, sheet, &session, number);
        *lent = answer.number();
        session = next;
    }
    Replay { refusal, events: events.len(), session }
}

fn checked_record_to_play(record: &[u8], answers: usize) -> Result<Vec<usize>, Refusal> {
    let events = read_record(record).map_err(Fault::refusal)?;
    refuse_if(answers < events.len(), ROOM)?;
    Ok(events)
}

/// The same with so many bytes lent for the session, as the C library has it: 12, found last, where they are not those of a
/// session. Nothing is written then, also where another refusal is found before it: no session is handed back.
pub fn play_into(
    session_bytes: usize,
    image: &[u8],
    sheet: &mut [u8],
    columns: usize,
    lines: usize,
    record: &[u8],
    answers: &mut [u32],
) -> (Refusal, usize, Option<Session>) {
    if session_bytes == LAYOUT.bytes {
        let replay = play(image, sheet, columns, lines, record, answers);
        return (replay.refusal, replay.events, Some(replay.session));
    }
    let replay = play(image, &mut sheet.to_vec(), columns, lines, record, &mut answers.to_vec());
    let refusal = if replay.refusal == ACCEPTED { SESSION } else { replay.refusal };
    (refusal, 0, None)
}
