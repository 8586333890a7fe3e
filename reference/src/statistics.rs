//! What sittings reached: refusals, answers, kinds visited, questions marked, records played, and the turns that are met seldom.

use crate::components::{CODE, DATE_LONG, DATE_SHORT};
use crate::fields::{all_within, Field, Kind, DAY, MONTH};
use crate::image::{Component, Menu};
use crate::keys::{ENTER, SECOND, UP};
use crate::marker::{questions, Fault, Question, Verdict};
use crate::record::{self, read_record, HIGHEST_NUMBER};
use crate::refusal::SESSION;
use crate::session::{Answer, Mode, Session, Visit};
use crate::vectors::{Outcome, Reference, Step};
use crate::walk::check;
use std::collections::BTreeMap;
use std::fmt;

/// The types and masks of 001 7.5, by code.
const NAMES: [&str; 24] = [
    "uchar dd",
    "uchar ddd",
    "uchar hh",
    "char sdd",
    "char sddd",
    "uint2 DDD",
    "uint2 DDDD",
    "uint2 DDDDD",
    "uint2 HHHH",
    "int2 SDDD",
    "int2 SDDDD",
    "float SII.F",
    "float SIII.F",
    "counter",
    "fcounter",
    "time-long",
    "time-short",
    "date-long",
    "date-short",
    "switch",
    "option",
    "string",
    "password",
    "trigger",
];

#[derive(Default)]
pub struct Statistics {
    pub sittings: usize,
    pub steps: usize,
    /// How often what was sat was played again and gave the same.
    pub replayed: usize,
    /// How often, by call and refusal.
    refusals: BTreeMap<(&'static str, u8), usize>,
    answers: BTreeMap<&'static str, usize>,
    /// By kind: keys in a visit that are taken, that flash, that finish or fire.
    visits: BTreeMap<&'static str, [usize; 3]>,
    /// Events by how deep the table shown is.
    depths: [usize; 9],
    /// Questions of accepted keys by what became of them.
    verdicts: BTreeMap<&'static str, usize>,
    /// Refused keys by the first cause met.
    faults: BTreeMap<&'static str, usize>,
    /// Records to play that are refused for themselves, by what is found first.
    record_faults: BTreeMap<record::Fault, usize>,
    turns: BTreeMap<&'static str, usize>,
}

impl Statistics {
    /// Counts a step, by the reference's session before it and what the step made of it.
    pub fn count(&mut self, step: &Step, before: &Session, after: &Reference, outcome: &Outcome) {
        self.steps += 1;
        match (step, outcome) {
            (_, Outcome::Opened(refusal)) => self.refusal("open", *refusal),
            (_, Outcome::Text(refusal, _)) => self.refusal("option text", *refusal),
            (_, Outcome::Drawn(refusal, picture, cursor)) => {
                self.refusal("draw", *refusal);
                self.turn_if(*refusal == 0 && picture.contains(&b'#'), "drawn with '#'");
                self.turn_if(cursor.is_some(), "drawn with an edit cursor");
                self.turn_if(
                    cursor.is_some_and(|(_, column)| column + 2 == after.session.columns),
                    "edit cursor on the last data cell",
                );
                self.drawn_dates(*refusal, after);
            }
            (Step::Event(event), Outcome::Answered(answer)) => self.event(*event, before, after, answer),
            (Step::Mark(key), Outcome::Marked(refusal, sums)) => {
                self.refusal("mark", *refusal);
                self.turn_if(*refusal == 0 && sums.iter().all(|&sum| sum > 0), "marked with three sums above 0");
                if let Ok(menu) = check(&after.image, after.sheet.len()) {
                    self.key(&menu, &after.sheet, key);
                }
            }
            (Step::Record { events, room }, Outcome::Recorded(refusal, length, _)) => {
                self.refusal("record", *refusal);
                self.recording(events, room, *refusal, *length);
            }
            (Step::Play { columns, lines, record, .. }, Outcome::Played(refusal, events, answers)) => {
                self.refusal("play", *refusal);
                self.turn_if(*refusal == 1 && (*columns > 255 || *lines > 255), "played with a shape over 255");
                match read_record(record) {
                    Err(fault) => *self.record_faults.entry(fault).or_default() += 1,
                    Ok(_) if *refusal == 0 => self.playing(*events, answers),
                    Ok(_) => {}
                }
            }
            (Step::Session(_), _) => {
                let fits = check(&after.image, after.sheet.len()).is_ok_and(|menu| after.session.fits(&menu));
                self.turn_if(fits, "forged session fits");
                self.turn_if(!fits, "forged session does not fit");
                self.turn_if(fits && visits_unreal_date(after), "date: not real, forged session fits");
                self.turn_if(is_day_alone_at_fault(after), "date: forged, fits but for the day");
            }
            (Step::Sheet(_), _) => {
                let fields_hold = |menu: Menu| menu.fields().iter().any(|(_, field)| holds_unreal_date(field, &after.sheet));
                self.turn_if(check(&after.image, after.sheet.len()).is_ok_and(fields_hold), "date: not real, lent in a sheet");
            }
            _ => {}
        }
    }

    fn event(&mut self, event: usize, before: &Session, after: &Reference, answer: &Answer) {
        let (name, refusal) = match answer {
            Answer::Taken => ("taken", 0),
            Answer::Flash => ("flash", 0),
            Answer::Finished(_) => ("finished", 0),
            Answer::Fired(_) => ("fired", 0),
            Answer::Refused(refusal) => ("refused", *refusal),
        };
        *self.answers.entry(name).or_default() += 1;
        self.refusal("event", refusal);
        if refusal == 0 {
            self.depths[before.levels.len()] += 1;
            self.visit_key(event, before, after, answer);
            self.turns_of(event, before, &after.session, answer);
            self.date_turns(event, before, after, answer);
        }
        self.turn_if(refusal == SESSION && is_day_alone_at_fault(after), "date: event refused for the day");
    }

    /// Counts what a picture shows of dates that are not real.
    fn drawn_dates(&mut self, refusal: u8, after: &Reference) {
        self.turn_if(refusal == SESSION && is_day_alone_at_fault(after), "date: picture refused for the day");
        if let (0, Ok(menu)) = (refusal, check(&after.image, after.sheet.len())) {
            let (table, first) = (after.session.table(&menu), after.session.here().first);
            let lines = table.lines.iter().skip(first).take(after.session.rows());
            let mut fields = lines.flat_map(|line| &line.components).filter_map(Component::field);
            self.turn_if(fields.any(|field| holds_unreal_date(field, &after.sheet)), "date: not real, shown as '#'");
            self.turn_if(visits_unreal_date(after), "date: not real, visit in digits");
        }
    }

    /// Counts what an accepted event does in the visit of a date, or where it opens one.
    fn date_turns(&mut self, event: usize, before: &Session, after: &Reference, answer: &Answer) {
        if let Some((visit, end)) = visited_date(&after.image, before) {
            let day = visit.cells[DAY];
            let leaves_month = event == ENTER && visit.chosen == MONTH;
            let flashes_up = event == UP && *answer == Answer::Flash;
            let is_stored = matches!(answer, Answer::Finished(_));
            self.turn_if(event != SECOND && day > end, "date: not real, key in its visit");
            self.turn_if(leaves_month && day > end, "date: day lowered by ENTER");
            self.turn_if(leaves_month && day == end, "date: day at the end left by ENTER");
            self.turn_if(flashes_up && visit.chosen == DAY && end < 31, "date: UP flashes before the 31st");
            self.turn_if(is_stored && day == 29 && end == 29, "date: 29 February stored");
        }
        self.turn_if(event == ENTER && opens_unreal_date(before, after), "date: not real, visit from default");
    }

    /// Counts a key on an image that is accepted.
    fn key(&mut self, menu: &Menu, sheet: &[u8], key: &[u16]) {
        self.turn_if(key.is_empty(), "key of no numbers");
        match questions(menu, key) {
            Ok(questions) => questions.iter().for_each(|question| self.question(menu, sheet, question)),
            Err(fault) => *self.faults.entry(fault_name(menu, sheet, fault)).or_default() += 1,
        }
    }

    fn question(&mut self, menu: &Menu, sheet: &[u8], question: &Question) {
        let name = match question.verdict(sheet) {
            Verdict::Right => "right",
            Verdict::Wrong => "wrong",
            Verdict::Blank => "blank",
        };
        *self.verdicts.entry(name).or_default() += 1;
        self.turn_if(question.points == 0, "question of no points");
        self.turn_if(question.points == u8::MAX, "question of 255 points");
        let fields = menu.fields();
        if let Some((_, field)) = fields.iter().find(|(_, field)| field.sheet_bytes() == (question.place..question.place + 1)) {
            self.turn_if(field.read(sheet).is_none(), "marked a byte out of range");
            self.turn_if(!field.kind.in_range(&field.kind.load(&[question.right])), "right byte out of range");
            self.turn_if(!field.edit, "marked a field that is not editable");
        }
    }

    fn recording(&mut self, events: &[u8], room: &[u8], refusal: u8, length: usize) {
        let is_good = refusal == 0;
        self.turn_if(is_good && length == room.len(), "recorded in room exactly right");
        self.turn_if(is_good && length < room.len(), "recorded in room with a rest");
        self.turn_if(is_good && events.is_empty(), "recorded no events");
        self.turn_if(is_good && events.len() == HIGHEST_NUMBER, "recorded 65,535 events");
        self.turn_if(is_good && (128..HIGHEST_NUMBER).contains(&events.len()), "recorded 128 events or more");
    }

    /// Counts an accepted playing.
    fn playing(&mut self, events: usize, answers: &[u32]) {
        self.turn_if(events == answers.len(), "played into a list exactly right");
        self.turn_if(events < answers.len(), "played into a list with a rest");
        self.turn_if(events == 0, "played no events");
        self.turn_if(events == HIGHEST_NUMBER, "played 65,535 events");
        self.turn_if((128..HIGHEST_NUMBER).contains(&events), "played 128 events or more");
        let is_met = |least: u32| answers[..events].iter().any(|answer| (least..2 * least).contains(answer));
        self.turn_if(is_met(65_536), "played a finished visit");
        self.turn_if(is_met(131_072), "played a trigger fired");
    }

    fn visit_key(&mut self, event: usize, before: &Session, after: &Reference, answer: &Answer) {
        if let (Mode::Visit(visit), true) = (&before.mode, event != SECOND) {
            let name = NAMES[usize::from(after.image[visit.place] & 0x1F)];
            let which = match answer {
                Answer::Taken => 0,
                Answer::Flash => 1,
                _ => 2,
            };
            self.visits.entry(name).or_default()[which] += 1;
        }
    }

    fn turns_of(&mut self, event: usize, before: &Session, after: &Session, answer: &Answer) {
        let entry_before = matches!(before.mode, Mode::Password(_));
        let entry_after = matches!(after.mode, Mode::Password(_));
        let flash = *answer == Answer::Flash;
        let second = event == SECOND;
        self.turn_if(!entry_before && entry_after, "password entry begun");
        self.turn_if(entry_before && after.levels.len() > before.levels.len(), "password right");
        self.turn_if(entry_before && !entry_after && flash, "password wrong");
        self.turn_if(entry_before && !entry_after && second, "password entry timed out");
        self.turn_if(second && !entry_before && after.levels != before.levels, "second shows the top");
        self.turn_if(second && before.idle == 255 && after.idle == 255, "second at idle count 255");
        self.turn_if(second && matches!(before.mode, Mode::Visit(_)), "second in a visit");
        let first_shown = |session: &Session| session.levels.last().map(|level| level.first);
        let same_table = before.levels.len() == after.levels.len() && !second;
        self.turn_if(same_table && first_shown(before) != first_shown(after), "scrolled");
    }

    fn turn_if(&mut self, met: bool, name: &'static str) {
        if met {
            *self.turns.entry(name).or_default() += 1;
        }
    }

    fn refusal(&mut self, call: &'static str, refusal: u8) {
        *self.refusals.entry((call, refusal)).or_default() += 1;
    }

    /// How often a refusal was given, by any call.
    pub fn refused(&self, refusal: u8) -> usize {
        self.refusals.iter().filter(|((_, other), _)| *other == refusal).map(|(_, times)| times).sum()
    }
}

/// The visit of a date and where its month ends.
fn visited_date<'a>(image: &[u8], session: &'a Session) -> Option<(&'a Visit, i64)> {
    let Mode::Visit(visit) = &session.mode else { return None };
    let kind = match image.get(visit.place)? & CODE {
        DATE_LONG => Kind::Date { long: true },
        DATE_SHORT => Kind::Date { long: false },
        _ => return None,
    };
    Some((visit, kind.last_day(&visit.cells)?))
}

fn visits_unreal_date(after: &Reference) -> bool {
    visited_date(&after.image, &after.session).is_some_and(|(visit, end)| visit.cells[DAY] > end)
}

/// Whether the session does not fit for its visit's day, 1 to 31, alone: it would on the 1st.
fn is_day_alone_at_fault(after: &Reference) -> bool {
    let Ok(menu) = check(&after.image, after.sheet.len()) else { return false };
    let mut other = after.session.clone();
    let Mode::Visit(visit) = &mut other.mode else { return false };
    let is_a_day = (1..=31).contains(&visit.cells[DAY]);
    visit.cells[DAY] = 1;
    is_a_day && visits_unreal_date(after) && !after.session.fits(&menu) && other.fits(&menu)
}

/// Whether the sheet's date has its parts in range and is not real.
fn holds_unreal_date(field: &Field, sheet: &[u8]) -> bool {
    let value = field.kind.load(&sheet[field.sheet_bytes()]);
    all_within(&field.kind.bounds(), &value) && !field.kind.in_range(&value)
}

/// Whether an accepted event opened the visit of a date that is not real in the sheet.
fn opens_unreal_date(before: &Session, after: &Reference) -> bool {
    let (Mode::Visit(visit), Ok(menu)) = (&after.session.mode, check(&after.image, after.sheet.len())) else { return false };
    let is_new = !matches!(&before.mode, Mode::Visit(other) if other.place == visit.place);
    let holds = |(place, field): &(usize, &Field)| *place == visit.place && holds_unreal_date(field, &after.sheet);
    is_new && menu.fields().iter().any(holds)
}

/// A cause of refusal 15 in words; a wrong place by what stands there.
fn fault_name(menu: &Menu, sheet: &[u8], fault: Fault) -> &'static str {
    match fault {
        Fault::Length => "length",
        Fault::Place(place) if place >= sheet.len() => "place past the sheet",
        Fault::Place(place) if menu.fields().iter().any(|(_, field)| field.sheet_bytes().contains(&place)) => {
            "place in a wider field"
        }
        Fault::Place(_) => "place of no field",
        Fault::Twice => "place twice",
        Fault::RightOver255 => "right byte over 255",
        Fault::RightIsDefault => "right byte is the default",
        Fault::PointsOver255 => "points over 255",
    }
}

impl fmt::Display for Statistics {
    fn fmt(&self, out: &mut fmt::Formatter) -> fmt::Result {
        writeln!(out, "{} sittings, {} steps, {} times played again", self.sittings, self.steps, self.replayed)?;
        for call in ["open", "event", "draw", "option text", "mark", "record", "play"] {
            let total: usize = self.refusals.iter().filter(|((other, _), _)| *other == call).map(|(_, times)| times).sum();
            let accepted = self.refusals.get(&(call, 0)).copied().unwrap_or(0);
            write!(out, "{call}: {total}, accepted {:.1} %; refused", 100.0 * accepted as f64 / total.max(1) as f64)?;
            for ((_, refusal), times) in self.refusals.iter().filter(|((other, refusal), _)| *other == call && *refusal > 0) {
                write!(out, " {refusal}:{times}")?;
            }
            writeln!(out)?;
        }
        writeln!(out, "answers: {:?}", self.answers)?;
        writeln!(out, "questions marked: {:?}", self.verdicts)?;
        writeln!(out, "keys refused: {:?}", self.faults)?;
        writeln!(out, "records refused for themselves: {:?}", self.record_faults)?;
        writeln!(out, "events by depth of the table shown: {:?}", &self.depths[1..])?;
        writeln!(out, "keys in visits by kind (taken, flash, finished or fired):")?;
        for (name, [taken, flash, ended]) in &self.visits {
            writeln!(out, "  {name:12} {taken:9} {flash:9} {ended:9}")?;
        }
        writeln!(out, "turns:")?;
        for (name, times) in &self.turns {
            writeln!(out, "  {name:36} {times:9}")?;
        }
        Ok(())
    }
}
