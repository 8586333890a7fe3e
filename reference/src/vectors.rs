//! The vectors' format: a case is a run of lines, each lending bytes or making a call, with '->' before what is expected.

use crate::layout;
use crate::marker::{mark_into, SUMS};
use crate::record::{play_into, record};
use crate::session::{Answer, Session};
use crate::{calls, Refusal};
use std::ops::Range;

/// What a line of a case does. `Session` forges one, `Sums` lends another number of sums, and `Buffer` lends playing so many bytes
/// for its session; they are no part of the shared format.
#[derive(Clone, Debug)]
pub enum Step {
    Image(Vec<u8>),
    Sheet(Vec<u8>),
    Session(Vec<u8>),
    Sums(usize),
    Buffer(usize),
    Open { columns: usize, lines: usize },
    Event(usize),
    Draw(usize),
    Text { place: usize, item: usize },
    Mark(Vec<u16>),
    Record { events: Vec<u8>, room: Vec<u8> },
    Play { columns: usize, lines: usize, record: Vec<u8>, answers: usize },
}

/// What a call answers.
#[derive(Clone, Debug, PartialEq, Eq)]
pub enum Outcome {
    Lent,
    Opened(Refusal),
    Answered(Answer),
    /// The picture as it is afterwards, drawn or not.
    Drawn(Refusal, Vec<u8>, Option<(usize, usize)>),
    Text(Refusal, Range<usize>),
    /// The lent sums as they are afterwards, written or not.
    Marked(Refusal, Vec<u32>),
    /// The length, and the room as it is afterwards.
    Recorded(Refusal, usize, Vec<u8>),
    /// How many events were played, and the lent list as it is afterwards.
    Played(Refusal, usize, Vec<u32>),
}

/// Whatever can play a case.
pub trait Executor {
    fn play(&mut self, step: &Step) -> Outcome;
    fn image(&self) -> &[u8];
    fn sheet(&self) -> &[u8];
}

/// The lent picture is filled with this before a draw.
pub const UNDRAWN: u8 = 0xAA;
/// The lent sums hold this before a marking.
pub const UNMARKED: u32 = 0xAAAA_AAAA;
/// The lent list of answers holds this before a playing.
pub const UNPLAYED: u32 = 7;

/// The reference with what is lent to it.
pub struct Reference {
    pub image: Vec<u8>,
    pub sheet: Vec<u8>,
    pub session: Session,
    /// How many sums are lent.
    pub sums: usize,
    /// How many bytes are lent for the session that playing hands back.
    pub buffer: usize,
}

impl Reference {
    pub fn new() -> Reference {
        Reference { image: vec![], sheet: vec![], session: Session::closed(), sums: SUMS, buffer: layout::LAYOUT.bytes }
    }

    fn mark(&self, key: &[u16]) -> Outcome {
        let mut sums = vec![UNMARKED; self.sums];
        let refusal = mark_into(&self.image, &self.sheet, key, &mut sums);
        Outcome::Marked(refusal, sums)
    }

    fn replay(&mut self, columns: usize, lines: usize, record: &[u8], answers: usize) -> Outcome {
        let mut answers = vec![UNPLAYED; answers];
        let (refusal, events, session) =
            play_into(self.buffer, &self.image, &mut self.sheet, columns, lines, record, &mut answers);
        if let Some(session) = session {
            self.session = session;
        }
        Outcome::Played(refusal, events, answers)
    }
}

fn recorded(events: &[u8], room: &[u8]) -> Outcome {
    let mut room = room.to_vec();
    let (refusal, length) = record(events, &mut room);
    Outcome::Recorded(refusal, length, room)
}

impl Default for Reference {
    fn default() -> Self {
        Reference::new()
    }
}

impl Executor for Reference {
    fn play(&mut self, step: &Step) -> Outcome {
        match step {
            Step::Image(bytes) => self.image.clone_from(bytes),
            Step::Sheet(bytes) => self.sheet.clone_from(bytes),
            Step::Session(bytes) => self.session = layout::session_from_bytes(&layout::LAYOUT, bytes),
            Step::Sums(count) => self.sums = *count,
            Step::Buffer(length) => self.buffer = *length,
            Step::Open { columns, lines } => {
                let (refusal, session) = calls::open(&self.image, &mut self.sheet, *columns, *lines);
                self.session = session;
                return Outcome::Opened(refusal);
            }
            Step::Event(event) => {
                let (session, answer) = calls::event(&self.image, &mut self.sheet, &self.session, *event);
                self.session = session;
                return Outcome::Answered(answer);
            }
            Step::Draw(length) => {
                let mut picture = vec![UNDRAWN; *length];
                let (refusal, cursor) = calls::draw(&self.image, &self.sheet, &self.session, &mut picture);
                return Outcome::Drawn(refusal, picture, cursor);
            }
            Step::Text { place, item } => {
                let (refusal, text) = calls::option_text(&self.image, &self.sheet, *place, *item);
                return Outcome::Text(refusal, text);
            }
            Step::Mark(key) => return self.mark(key),
            Step::Record { events, room } => return recorded(events, room),
            Step::Play { columns, lines, record, answers } => return self.replay(*columns, *lines, record, *answers),
        }
        Outcome::Lent
    }

    fn image(&self) -> &[u8] {
        &self.image
    }

    fn sheet(&self) -> &[u8] {
        &self.sheet
    }
}

/// A line of a vector file.
pub enum Entry {
    Case(String),
    Step(Step),
    SheetIs(Vec<u8>),
}

/// Reads a line: what it does and the words behind '->'. None for a line that is not of the format.
pub fn read_line(line: &str) -> Option<(Entry, String)> {
    let (call, expected) = line.split_once("->").unwrap_or((line, ""));
    let words: Vec<&str> = call.split_whitespace().collect();
    let number = |at: usize| words.get(at)?.parse::<usize>().ok();
    let entry = match *words.first()? {
        "case" => Entry::Case(words[1..].join(" ")),
        "sheetis" => Entry::SheetIs(from_hex(words.get(1)?)?),
        "image" => Entry::Step(Step::Image(from_hex(words.get(1)?)?)),
        "sheet" => Entry::Step(Step::Sheet(from_hex(words.get(1)?)?)),
        "session" => Entry::Step(Step::Session(from_hex(words.get(1)?)?)),
        "sums" => Entry::Step(Step::Sums(number(1)?)),
        "buffer" => Entry::Step(Step::Buffer(number(1)?)),
        "open" => Entry::Step(Step::Open { columns: number(1)?, lines: number(2)? }),
        "event" => Entry::Step(Step::Event(number(1)?)),
        "draw" => Entry::Step(Step::Draw(number(1)?)),
        "text" => Entry::Step(Step::Text { place: number(1)?, item: number(2)? }),
        "mark" => Entry::Step(Step::Mark(words[1..].iter().map(|word| word.parse().ok()).collect::<Option<_>>()?)),
        "record" => Entry::Step(Step::Record { events: from_hex(words.get(1)?)?, room: from_hex(words.get(2)?)? }),
        "play" => {
            let record = from_hex(words.get(3)?)?;
            Entry::Step(Step::Play { columns: number(1)?, lines: number(2)?, record, answers: number(4)? })
        }
        _ => return None,
    };
    Some((entry, expected.trim().to_string()))
}

/// The line of a step and what it was answered with.
pub fn write_line(step: &Step, outcome: &Outcome, image: &[u8]) -> String {
    let call = match step {
        Step::Image(bytes) => return format!("image {}", to_hex(bytes)),
        Step::Sheet(bytes) => return format!("sheet {}", to_hex(bytes)),
        Step::Session(bytes) => return format!("session {}", to_hex(bytes)),
        Step::Sums(count) => return format!("sums {count}"),
        Step::Buffer(length) => return format!("buffer {length}"),
        Step::Open { columns, lines } => format!("open {columns} {lines}"),
        Step::Event(event) => format!("event {event}"),
        Step::Draw(length) => format!("draw {length}"),
        Step::Text { place, item } => format!("text {place} {item}"),
        Step::Mark(key) => numbered("mark", key),
        Step::Record { events, room } => format!("record {} {}", to_hex(events), to_hex(room)),
        Step::Play { columns, lines, record, answers } => format!("play {columns} {lines} {} {answers}", to_hex(record)),
    };
    format!("{call} -> {}", outcome_words(outcome, image))
}

/// What stands behind '->'.
pub fn outcome_words(outcome: &Outcome, image: &[u8]) -> String {
    match outcome {
        Outcome::Lent => String::new(),
        Outcome::Opened(refusal) => refusal.to_string(),
        Outcome::Answered(Answer::Refused(refusal)) => format!("{refusal} -"),
        Outcome::Answered(answer) => format!("0 {}", answer.number()),
        Outcome::Drawn(0, picture, cursor) => {
            let (row, column) = cursor.map_or(("-".into(), "-".into()), |(row, column)| (row.to_string(), column.to_string()));
            format!("0 {} {row} {column}", to_hex(picture))
        }
        Outcome::Drawn(refusal, ..) => format!("{refusal} - - -"),
        Outcome::Text(0, text) => format!("0 {} {}", text.start, to_hex(&image[text.clone()])),
        Outcome::Text(refusal, _) => format!("{refusal} - -"),
        Outcome::Marked(0, sums) => numbered("0", sums),
        Outcome::Marked(refusal, _) => format!("{refusal} - - -"),
        Outcome::Recorded(refusal, length, room) => format!("{refusal} {length} {}", to_hex(room)),
        Outcome::Played(0, events, answers) => numbered(&format!("0 {events}"), answers),
        Outcome::Played(refusal, _, answers) => numbered(&format!("{refusal} -"), answers),
    }
}

/// A word and numbers behind it.
fn numbered<T: ToString>(word: &str, numbers: &[T]) -> String {
    numbers.iter().fold(word.to_string(), |line, number| line + " " + &number.to_string())
}

pub fn to_hex(bytes: &[u8]) -> String {
    if bytes.is_empty() {
        return "-".to_string();
    }
    bytes.iter().map(|byte| format!("{byte:02x}")).collect()
}

pub fn from_hex(word: &str) -> Option<Vec<u8>> {
    if word == "-" {
        return Some(vec![]);
    }
    let pairs = word.as_bytes().chunks(2);
    pairs.map(|pair| u8::from_str_radix(std::str::from_utf8(pair).ok()?, 16).ok()).collect()
}
