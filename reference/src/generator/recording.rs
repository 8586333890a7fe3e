//! Records to play: the events' own, or one with a flaw or two that 02 No. 2 lists; and how long a room and a list are lent.

use super::flaws::contents;
use crate::keys::LAST_EVENT;
use crate::random::Random;
use crate::record::{read_number, write_number, write_record, ANOTHER, FORM, GROUP, HIGHEST_NUMBER};

/// What can be wrong with one number of a record.
#[derive(Clone, Copy)]
enum Flaw {
    LeadingZero,
    FourthGroup,
    TooHigh,
    OtherForm,
    Count,
    Event,
}

const FLAWS: [Flaw; 6] = [Flaw::LeadingZero, Flaw::FourthGroup, Flaw::TooHigh, Flaw::OtherForm, Flaw::Count, Flaw::Event];

/// The numbers of a record, each in its groups: the form number, how many events there are, the events.
type Numbers = Vec<Vec<u8>>;

const COUNT: usize = 1;
const FIRST_EVENT: usize = 2;

/// A list of events with no sitting behind it, at times so long that its count takes two groups.
pub fn any_events(random: &mut Random) -> Vec<u8> {
    let some = random.below(20);
    let many = random.within(126, 130) as usize;
    let length = random.weighted(&[(5, 0), (10, 1), (60, some), (10, many)]);
    (0..length).map(|_| random.below(LAST_EVENT + 1) as u8).collect()
}

/// The same events with one or two bad ones put among them.
pub fn with_bad_events(random: &mut Random, events: &[u8]) -> Vec<u8> {
    let mut events = events.to_vec();
    for _ in 0..random.within(1, 2) {
        let any = random.within(LAST_EVENT as i64 + 1, 255) as u8;
        let bad = *random.pick(&[17, 17, 18, 127, 128, 144, 255, any]);
        events.insert(random.below(events.len() + 1), bad);
    }
    events
}

/// Room for these events' record: exactly right, longer or too short.
pub fn any_room(random: &mut Random, events: &[u8]) -> Vec<u8> {
    let length = near(random, write_record(events).len());
    contents(random, length)
}

/// How long a list is lent for so many events.
pub fn list_length(random: &mut Random, events: usize) -> usize {
    near(random, events)
}

/// Exactly so many in about half of the cases, else more or fewer.
fn near(random: &mut Random, needed: usize) -> usize {
    match random.below(20) {
        0..=8 => needed,
        9 | 10 => needed + 1,
        11..=13 => needed + random.within(2, 9) as usize,
        14..=17 => needed.saturating_sub(1),
        18 => random.below(needed + 1),
        _ => 0,
    }
}

/// A record that is meant to be refused, though the damage may leave a good one.
pub fn flawed_record(random: &mut Random, events: &[u8]) -> Vec<u8> {
    let mut numbers = numbers_of(events);
    match random.below(20) {
        0..=10 => spoil(random, &mut numbers),
        11..=14 => return damaged(random, numbers.concat()),
        15 | 16 => {
            spoil(random, &mut numbers);
            spoil(random, &mut numbers);
        }
        17 | 18 => {
            spoil(random, &mut numbers);
            return damaged(random, numbers.concat());
        }
        _ => return junk(random),
    }
    numbers.concat()
}

fn numbers_of(events: &[u8]) -> Numbers {
    let events = events.iter().map(|&event| usize::from(event));
    [FORM, events.len()].into_iter().chain(events).map(write_number).collect()
}

/// One number gets a flaw.
fn spoil(random: &mut Random, numbers: &mut Numbers) {
    let which = which_number(random, numbers.len());
    match *random.pick(&FLAWS) {
        Flaw::LeadingZero => numbers[which].insert(0, ANOTHER),
        // the same in its low bits, so that a number cut to them would pass
        Flaw::FourthGroup => raise(random, &mut numbers[which], GROUP * GROUP * GROUP),
        Flaw::TooHigh => raise(random, &mut numbers[which], HIGHEST_NUMBER + 1),
        Flaw::OtherForm => numbers[0] = other_form(random),
        Flaw::Count => numbers[COUNT] = other_count(random, &numbers[COUNT]),
        Flaw::Event => spoil_event(random, numbers),
    }
}

/// The form number, the count, or an event: an end of the list often.
fn which_number(random: &mut Random, length: usize) -> usize {
    let event = random.within(FIRST_EVENT as i64, (length as i64 - 1).max(FIRST_EVENT as i64)) as usize;
    random.weighted(&[(3, 0), (3, COUNT), (1, FIRST_EVENT), (2, length - 1), (3, event)]).min(length - 1)
}

/// Adds a multiple of this to a number, a low one mostly.
fn raise(random: &mut Random, number: &mut Vec<u8>, by: usize) {
    let now = read_number(number).map_or(0, |(now, _)| now);
    let times = *random.pick(&[1, 1, 2, 31]);
    let low = *random.pick(&[now, now, now, 0]);
    *number = write_number(low + times * by);
}

fn other_form(random: &mut Random) -> Vec<u8> {
    let any = random.below(HIGHEST_NUMBER + 1);
    let forms = [0, 2, 2, 3, 127, 128, 129, 256, 257, 16_383, 16_384, 16_385, 65_535, any];
    write_number(*random.pick(&forms))
}

/// One more or one less, or a count that is the same in its low bits.
fn other_count(random: &mut Random, count: &[u8]) -> Vec<u8> {
    let now = read_number(count).map_or(0, |(now, _)| now);
    let any = random.below(HIGHEST_NUMBER + 1);
    let other = *random.pick(&[now + 1, now + 1, now.saturating_sub(1), 0, now + 128, now + 256, HIGHEST_NUMBER, any]);
    write_number(other.min(HIGHEST_NUMBER))
}

/// An event becomes a number above the last event; where there is none, one is added and counted.
fn spoil_event(random: &mut Random, numbers: &mut Numbers) {
    let low = random.below(LAST_EVENT + 1);
    let bad = *random.pick(&[17, 17, 18, 127, 128, 128 + low, 255, 256 + low, 272, 16_384, 65_535]);
    if numbers.len() == FIRST_EVENT {
        numbers[COUNT] = write_number(1);
        numbers.push(write_number(bad));
    } else {
        let which = which_number(random, numbers.len()).max(FIRST_EVENT);
        numbers[which] = write_number(bad);
    }
}

/// Bytes flipped, changed, cut off or added.
fn damaged(random: &mut Random, mut record: Vec<u8>) -> Vec<u8> {
    let at = random.below(record.len());
    match random.below(6) {
        0 | 1 => record[at] ^= ANOTHER,
        2 => record[at] = random.byte(),
        3 => record.truncate(*random.pick(&[at, record.len() - 1, 1, 0])),
        _ => {
            let any = random.byte();
            let over = random.within(1, 3);
            record.extend((0..over).map(|_| *random.pick(&[0, 16, ANOTHER, any])));
        }
    }
    record
}

/// Any few bytes, with a good form number in half of the cases.
fn junk(random: &mut Random) -> Vec<u8> {
    let length = random.below(8);
    let mut record = random.bytes(length);
    if random.chance(50) {
        record.insert(0, FORM as u8);
    }
    record
}
