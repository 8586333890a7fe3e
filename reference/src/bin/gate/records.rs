//! Recordings (op 8) and records played (op 9), each case with random numbers of its own.

use crate::{drawn, hex, low_first, planned, Cases, Shape, FILL, LONGEST_SHEET};
use reference::generator::cases::compact_material;
use reference::generator::flaws::Material;
use reference::generator::recording::{any_events, any_room, flawed_record, with_bad_events};
use reference::keys::LAST_EVENT;
use reference::random::Random;
use reference::record::{play, read_record, record, write_record};
use reference::refusal::*;
use reference::session::has_legal_shape;
use reference::vectors::UNPLAYED;
use reference::walk::check;
use std::ops::RangeInclusive;

const RECORD_EVENTS: u8 = 8;
const PLAY_RECORD: u8 = 9;

/// How many recordings and records played there are.
pub const RECORDINGS: u64 = 60;
pub const REPLAYS: u64 = 80;
/// The runner's lists have at most 1,024 entries, of which a few may be spare.
const MOST_EVENTS: usize = 1_020;

/// The refusals that an image or a sheet can be made for.
const IMAGE_REFUSALS: RangeInclusive<Refusal> = IMAGE_LENGTH..=SHARED_BYTE;

/// Shapes that Open refuses, each with a picture that the runner has room for.
const BAD_SHAPES: [Shape; 10] = [
    Shape { columns: 13, lines: 4 },
    Shape { columns: 21, lines: 4 },
    Shape { columns: 20, lines: 1 },
    Shape { columns: 20, lines: 5 },
    Shape { columns: 14, lines: 0 },
    Shape { columns: 0, lines: 4 },
    Shape { columns: 0, lines: 0 },
    Shape { columns: 255, lines: 1 },
    Shape { columns: 4, lines: 20 },
    Shape { columns: 12, lines: 2 },
];

impl Cases {
    /// Recording number `number`, by turns in room that is right, longer, any and too short, and of bad events.
    pub fn add_record(&mut self, mut random: Random, number: u64) {
        let random = &mut random;
        let good = recorded_events(random, number);
        let needed = write_record(&good).len();
        let (about, events, room) = match number % 6 {
            0 => ("exact", good, needed),
            1 => ("longer", good, needed + random.within(1, 9) as usize),
            2 => ("any", good.clone(), any_room(random, &good).len()),
            3 => ("short", good, needed - 1 - random.below(2) * random.below(needed)),
            4 => ("bad", with_bad_events(random, &good), needed + 3),
            _ => ("bad-short", with_bad_events(random, &good), random.below(needed)),
        };
        let answer = recorded(&events, room);
        self.add(RECORD_EVENTS, &format!("record-{about}-{number}"), &events, [room, 0, 0], &[], &answer);
    }

    /// Playing number `number`: what was sat, or with a refusal, by turns.
    pub fn add_replay(&mut self, mut random: Random, number: u64) {
        let case = ReplayCase::new(&mut random, number, refusal_of_replay(number));
        let tail = [&low_first(&[case.answers as u16, case.record.len() as u16]), &case.record[..]].concat();
        let numbers = [case.sheet, case.shape.columns, case.shape.lines];
        let answer = replayed(&case.image, case.sheet, &case.shape, &case.record, case.answers);
        self.add(PLAY_RECORD, &format!("replay-{}-{number}", case.about), &case.image, numbers, &tail, &answer);
    }
}

/// What the runner prints for a recording.
fn recorded(events: &[u8], room: usize) -> String {
    let mut room = vec![FILL; room];
    let (refusal, length) = record(events, &mut room);
    format!("{refusal} {length} {}", hex(&room))
}

/// What the runner prints for a record played.
fn replayed(image: &[u8], sheet: usize, shape: &Shape, record: &[u8], answers: usize) -> String {
    let mut sheet = vec![FILL; sheet];
    let mut list = vec![UNPLAYED; answers];
    let replay = play(image, &mut sheet, shape.columns, shape.lines, record, &mut list);
    let mut words = vec![replay.refusal.to_string(), replay.events.to_string()];
    words.extend(list.iter().map(u32::to_string));
    words.push(hex(&sheet));
    words.push(drawn(image, &sheet, &replay.session, shape));
    words.join(" ")
}

/// None at first, then as many as the count takes in one group and in two; then any events.
fn recorded_events(random: &mut Random, number: u64) -> Vec<u8> {
    match number {
        0..6 => vec![],
        6..12 => events_to(random, vec![], 127),
        12..18 => events_to(random, vec![], 128),
        18..21 => events_to(random, vec![], MOST_EVENTS),
        _ => any_events(random),
    }
}

/// Puts any events behind these, so that there are so many.
fn events_to(random: &mut Random, mut events: Vec<u8>, length: usize) -> Vec<u8> {
    while events.len() < length {
        events.push(random.below(LAST_EVENT + 1) as u8);
    }
    events
}

/// What a case of op 9 is made of.
struct ReplayCase {
    about: String,
    image: Vec<u8>,
    /// How many bytes the sheet has.
    sheet: usize,
    shape: Shape,
    record: Vec<u8>,
    answers: usize,
}

impl ReplayCase {
    /// A case that is refused so, or accepted. What is found later may be at fault as well.
    fn new(random: &mut Random, number: u64, refusal: Refusal) -> ReplayCase {
        let is_for_record = matches!(refusal, RECORD | OTHER_FORM | EVENT);
        let is_before_open = is_for_record || refusal == ROOM;
        let is_list_short = refusal == ROOM || is_for_record && random.once_in(3);
        let is_shape_bad = refusal == SHAPE || is_before_open && random.once_in(5);
        let is_image_bad = IMAGE_REFUSALS.contains(&refusal) || refusal != ACCEPTED && random.once_in(5);
        let material = if is_image_bad { bad_material(random, refusal) } else { compact_material(random, 2 * number).1 };
        let sheet = material.sheet.len().min(LONGEST_SHEET);
        let (legal, events) = sat(random, &material.image, sheet, number);
        let shape = if is_shape_bad { *random.pick(&BAD_SHAPES) } else { legal };
        let record = if is_for_record { flawed_with(random, &events, refusal) } else { write_record(&events) };
        let answers = if is_list_short { events.len() - 1 } else { events.len() + random.below(4) };
        let about = if refusal == ACCEPTED { "good".to_string() } else { refusal.to_string() };
        ReplayCase { about, image: material.image, sheet, shape, record, answers }
    }
}

/// What playing number `number` is to be refused with, by turns.
fn refusal_of_replay(number: u64) -> Refusal {
    let round = number / 8;
    match number % 8 {
        0 | 1 => ACCEPTED,
        2 | 3 => RECORD,
        4 if round.is_multiple_of(2) => OTHER_FORM,
        4 => EVENT,
        5 => ROOM,
        6 => IMAGE_LENGTH + (round % 10) as u8,
        _ => SHAPE,
    }
}

/// An image or sheet with this refusal if it is one of theirs, else with any of them.
fn bad_material(random: &mut Random, refusal: Refusal) -> Material {
    let any = random.within(2, 11) as u8;
    let refusal = if IMAGE_REFUSALS.contains(&refusal) { refusal } else { any };
    let number = 2 * u64::from(refusal - IMAGE_LENGTH) + 1;
    loop {
        let (_, material) = compact_material(random, number);
        if check(&material.image, material.sheet.len().min(LONGEST_SHEET)).err() == Some(refusal) {
            return material;
        }
    }
}

/// A legal shape and at least one good event, as a sitting has them; some cases have more events.
fn sat(random: &mut Random, image: &[u8], sheet: usize, number: u64) -> (Shape, Vec<u8>) {
    let (mut shape, mut events) = planned(Random::new(random.number()), image, &vec![FILL; sheet]);
    events.retain(|&event| usize::from(event) <= LAST_EVENT);
    events.truncate(MOST_EVENTS);
    if !has_legal_shape(shape.columns, shape.lines) {
        shape = Shape::legal(random);
    }
    let least = match number {
        9 | 25 => 130,
        41 => MOST_EVENTS,
        _ => 1,
    };
    (shape, events_to(random, events, least))
}

/// A record that is refused so for itself.
fn flawed_with(random: &mut Random, events: &[u8], refusal: Refusal) -> Vec<u8> {
    loop {
        let record = flawed_record(random, events);
        if read_record(&record).err().map(|fault| fault.refusal()) == Some(refusal) {
            return record;
        }
    }
}
