//! The executor's C library (handset.h, desk.h) as something that plays cases. Only with the feature `library`.

use crate::layout;
use crate::marker::SUMS;
use crate::record::read_record;
use crate::refusal::{Refusal, ACCEPTED};
use crate::session::Answer;
use crate::vectors::{Executor, Outcome, Step, UNDRAWN, UNMARKED, UNPLAYED};

/// HANDSET_SESSION_BYTES of the header, as build.rs read it.
pub const SESSION_BYTES: &str = env!("HANDSET_SESSION_BYTES");
/// The library that this program was built with.
pub const LINKED: &str = env!("HANDSET_LIB");

const REFUSED: u32 = 1 << 24;
const REFUSED_TEXT: u64 = 1 << 32;
const FINISHED: u32 = 1 << 16;
const FIRED: u32 = 1 << 17;
/// Stands for a number that the header gives no meaning.
const NO_ANSWER: u8 = u8::MAX;
/// Numbers or bytes that stand behind what is lent and must not be written.
const BEHIND: usize = 4;
const UNWRITTEN: u8 = 0xAA;

extern "C" {
    fn handset_open(
        image: *const u8,
        image_len: usize,
        sheet: *mut u8,
        sheet_len: usize,
        columns: u32,
        lines: u32,
        session: *mut u8,
        session_len: usize,
    ) -> u32;
    fn handset_event(
        image: *const u8,
        image_len: usize,
        sheet: *mut u8,
        sheet_len: usize,
        session: *mut u8,
        session_len: usize,
        event: u32,
    ) -> u32;
    fn handset_draw(
        image: *const u8,
        image_len: usize,
        sheet: *const u8,
        sheet_len: usize,
        session: *const u8,
        session_len: usize,
        picture: *mut u8,
        picture_len: usize,
    ) -> u32;
    fn handset_option_text(
        image: *const u8,
        image_len: usize,
        sheet: *const u8,
        sheet_len: usize,
        place: usize,
        item: usize,
    ) -> u64;
    fn handset_mark(
        image: *const u8,
        image_len: usize,
        sheet: *const u8,
        sheet_len: usize,
        key: *const u16,
        key_count: usize,
        sums: *mut u32,
        sums_count: usize,
    ) -> u32;
    fn handset_record(events: *const u8, events_len: usize, room: *mut u8, room_len: usize) -> u32;
    fn handset_play(
        image: *const u8,
        image_len: usize,
        sheet: *mut u8,
        sheet_len: usize,
        columns: u32,
        lines: u32,
        record: *const u8,
        record_len: usize,
        answers: *mut u32,
        answers_count: usize,
        session: *mut u8,
        session_len: usize,
    ) -> u32;
}

/// The library with what is lent to it.
pub struct Library {
    image: Vec<u8>,
    sheet: Vec<u8>,
    pub session: Vec<u8>,
    sums: usize,
    buffer: usize,
    /// What the last call did that no answer shows.
    pub fault: Option<&'static str>,
}

impl Library {
    pub fn new() -> Library {
        let bytes = SESSION_BYTES.parse().expect("a number");
        assert!(!layout::IS_DOCUMENTED || layout::LAYOUT.bytes == bytes, "the layout is not that of the header");
        Library { image: vec![], sheet: vec![], session: vec![0; bytes], sums: SUMS, buffer: bytes, fault: None }
    }

    fn fault_if(&mut self, met: bool, words: &'static str) {
        if met {
            self.fault = Some(words);
        }
    }

    fn open(&mut self, columns: usize, lines: usize) -> Outcome {
        // SAFETY: each pointer goes with its own length, and nothing else uses the buffers meanwhile.
        let answer = unsafe {
            handset_open(
                self.image.as_ptr(),
                self.image.len(),
                self.sheet.as_mut_ptr(),
                self.sheet.len(),
                columns as u32,
                lines as u32,
                self.session.as_mut_ptr(),
                self.session.len(),
            )
        };
        Outcome::Opened(refusal_of(answer))
    }

    fn event(&mut self, event: usize) -> Outcome {
        let before = self.session.clone();
        // SAFETY: as in `open`.
        let number = unsafe {
            handset_event(
                self.image.as_ptr(),
                self.image.len(),
                self.sheet.as_mut_ptr(),
                self.sheet.len(),
                self.session.as_mut_ptr(),
                self.session.len(),
                event as u32,
            )
        };
        let answer = answer_of(number);
        let is_refused = matches!(answer, Answer::Refused(_));
        self.fault_if(is_refused && self.session != before, "a refused event changed the session");
        Outcome::Answered(answer)
    }

    fn draw(&mut self, length: usize) -> Outcome {
        let mut picture = vec![UNDRAWN; length];
        // SAFETY: as in `open`.
        let number = unsafe {
            handset_draw(
                self.image.as_ptr(),
                self.image.len(),
                self.sheet.as_ptr(),
                self.sheet.len(),
                self.session.as_ptr(),
                self.session.len(),
                picture.as_mut_ptr(),
                picture.len(),
            )
        };
        let cursor = (FINISHED..REFUSED).contains(&number).then(|| {
            let place = (number - FINISHED) as usize;
            (place / 256, place % 256)
        });
        Outcome::Drawn(number.saturating_sub(REFUSED) as u8, picture, cursor)
    }

    fn text(&self, place: usize, item: usize) -> Outcome {
        // SAFETY: as in `open`.
        let number = unsafe {
            handset_option_text(self.image.as_ptr(), self.image.len(), self.sheet.as_ptr(), self.sheet.len(), place, item)
        };
        if number >= REFUSED_TEXT {
            return Outcome::Text((number - REFUSED_TEXT) as u8, 0..0);
        }
        let start = (number / 65_536) as usize;
        Outcome::Text(0, start..start + (number % 65_536) as usize)
    }

    fn mark(&mut self, key: &[u16]) -> Outcome {
        let mut sums = vec![UNMARKED; self.sums + BEHIND];
        // SAFETY: as in `open`.
        let number = unsafe {
            handset_mark(
                self.image.as_ptr(),
                self.image.len(),
                self.sheet.as_ptr(),
                self.sheet.len(),
                key.as_ptr(),
                key.len(),
                sums.as_mut_ptr(),
                self.sums,
            )
        };
        self.fault_if(sums[self.sums..] != [UNMARKED; BEHIND], "a marking wrote behind the lent sums");
        sums.truncate(self.sums);
        Outcome::Marked(refusal_of(number), sums)
    }

    fn record(&mut self, events: &[u8], room: &[u8]) -> Outcome {
        let mut lent = [room, &[UNWRITTEN; BEHIND]].concat();
        // SAFETY: as in `open`.
        let number = unsafe { handset_record(events.as_ptr(), events.len(), lent.as_mut_ptr(), room.len()) };
        self.fault_if(lent[room.len()..] != [UNWRITTEN; BEHIND], "a recording wrote behind the lent room");
        lent.truncate(room.len());
        let (refusal, length) = counted(number);
        Outcome::Recorded(refusal, length, lent)
    }

    fn replay(&mut self, columns: usize, lines: usize, record: &[u8], count: usize) -> Outcome {
        let sheet = self.sheet.clone();
        let mut answers = vec![UNPLAYED; count + BEHIND];
        let mut session = vec![UNWRITTEN; self.buffer + BEHIND];
        // SAFETY: as in `open`.
        let number = unsafe {
            handset_play(
                self.image.as_ptr(),
                self.image.len(),
                self.sheet.as_mut_ptr(),
                self.sheet.len(),
                columns as u32,
                lines as u32,
                record.as_ptr(),
                record.len(),
                answers.as_mut_ptr(),
                count,
                session.as_mut_ptr(),
                self.buffer,
            )
        };
        self.fault_if(answers[count..] != [UNPLAYED; BEHIND], "a playing wrote behind the lent list");
        self.fault_if(session[self.buffer..] != [UNWRITTEN; BEHIND], "a playing wrote behind the lent session");
        answers.truncate(count);
        session.truncate(self.buffer);
        let (refusal, events) = counted(number);
        if self.buffer == self.session.len() {
            self.session = session;
        } else {
            let is_written = session.iter().any(|&byte| byte != UNWRITTEN);
            self.fault_if(is_written, "a playing wrote to a session of another length");
        }
        if refusal == ACCEPTED {
            let same = self.sits_alike(sheet, columns, lines, record, &answers);
            self.fault_if(!same, "a playing gave otherwise than its events one by one");
        }
        Outcome::Played(refusal, events, answers)
    }

    /// Whether Open on this sheet and the record's events give the same answers and, byte for byte, the same sheet and session.
    fn sits_alike(&self, sheet: Vec<u8>, columns: usize, lines: usize, record: &[u8], answers: &[u32]) -> bool {
        let Ok(events) = read_record(record) else { return false };
        let mut other = Library { image: self.image.clone(), sheet, ..Library::new() };
        other.open(columns, lines);
        let answered = |(&event, &number): (&usize, &u32)| match other.event(event) {
            Outcome::Answered(answer) => answer.number() == number,
            _ => false,
        };
        events.iter().zip(answers).all(answered) && other.sheet == self.sheet && other.session == self.session
    }
}

impl Default for Library {
    fn default() -> Self {
        Library::new()
    }
}

/// 0, or 16,777,216 + refusal.
fn refusal_of(number: u32) -> u8 {
    match number.checked_sub(REFUSED) {
        None if number == 0 => 0,
        Some(refusal @ 1..=254) => refusal as u8,
        _ => NO_ANSWER,
    }
}

/// A length or count, or 16,777,216 + refusal.
fn counted(number: u32) -> (Refusal, usize) {
    match number.checked_sub(REFUSED) {
        None => (ACCEPTED, number as usize),
        Some(refusal @ 1..=254) => (refusal as u8, 0),
        Some(_) => (NO_ANSWER, 0),
    }
}

fn answer_of(number: u32) -> Answer {
    match number {
        0 => Answer::Taken,
        1 => Answer::Flash,
        FINISHED..FIRED => Answer::Finished((number - FINISHED) as usize),
        FIRED..REFUSED => Answer::Fired((number - FIRED) as usize),
        REFUSED.. => Answer::Refused((number - REFUSED) as u8),
        _ => Answer::Refused(NO_ANSWER),
    }
}

impl Executor for Library {
    fn play(&mut self, step: &Step) -> Outcome {
        self.fault = None;
        match step {
            Step::Image(bytes) => self.image.clone_from(bytes),
            Step::Sheet(bytes) => self.sheet.clone_from(bytes),
            Step::Session(bytes) => self.session.clone_from(bytes),
            Step::Sums(count) => self.sums = *count,
            Step::Buffer(length) => self.buffer = *length,
            Step::Open { columns, lines } => return self.open(*columns, *lines),
            Step::Event(event) => return self.event(*event),
            Step::Draw(length) => return self.draw(*length),
            Step::Text { place, item } => return self.text(*place, *item),
            Step::Mark(key) => return self.mark(key),
            Step::Record { events, room } => return self.record(events, room),
            Step::Play { columns, lines, record, answers } => return self.replay(*columns, *lines, record, *answers),
        }
        Outcome::Lent
    }

    fn image(&self) -> &[u8] {
        &self.image
    }

    fn sheet(&self) -> &[u8] {
        &self.sheet
    }
}
