//! Real dates (02 No. 3): the calendar, defaults, dates in the sheet, visits part by part, and sessions that fit.

use reference::calendar::{is_leap_year, month_end};
use reference::generator::flaws::{dates, unreal_default};
use reference::keys::*;
use reference::layout::{session_from_bytes, session_to_bytes, LAYOUT};
use reference::random::Random;
use reference::session::Answer::{self, *};
use reference::session::{Mode, Visit};
use reference::walk::check;
use reference::{draw, event, open, Session};

/// Year, month, day.
type Date = [i64; 3];

const FEBRUARY: i64 = 2;

/// The menu of one table and one line puts its component here.
const FIELD: usize = 14;

const YEAR_PART: usize = 0;
const MONTH_PART: usize = 1;
const DAY_PART: usize = 2;

/// A date as sheet and image store it (R5): day, month, year in two bytes.
fn long([year, month, day]: Date) -> Vec<u8> {
    vec![day as u8, month as u8, (year % 256) as u8, (year / 256) as u8]
}

/// The same with the year in one byte.
fn short([year, month, day]: Date) -> Vec<u8> {
    vec![day as u8, month as u8, year as u8]
}

/// A menu whose only line has one editable component, the last one, with this code and default; its sheet begins with its bytes.
fn image(code: u8, default: &[u8]) -> Vec<u8> {
    [b"CMF\x00\x04\x00\x00\x00\xFF\xFE\x01T\x00\x03".as_slice(), &[0xA0 | code, 0, 0, 0, 0, 0], default].concat()
}

fn long_image(default: Date) -> Vec<u8> {
    image(0x11, &long(default))
}

fn short_image(default: Date) -> Vec<u8> {
    image(0x12, &short(default))
}

/// What Open says to these defaults.
fn long_refusal(default: Date) -> u8 {
    open(&long_image(default), &mut [0; 4], 16, 2).0
}

fn short_refusal(default: Date) -> u8 {
    open(&short_image(default), &mut [0; 3], 16, 2).0
}

/// Opens, lends this sheet in place of the defaults, and plays the keys: their answers, the sheet and the session.
fn sat(image: &[u8], sheet: &[u8], keys: &[usize]) -> (Vec<Answer>, Vec<u8>, Session) {
    let (refusal, session) = open(image, &mut sheet.to_vec(), 16, 2);
    assert_eq!(refusal, 0);
    go_on(image, sheet, session, keys)
}

fn go_on(image: &[u8], sheet: &[u8], mut session: Session, keys: &[usize]) -> (Vec<Answer>, Vec<u8>, Session) {
    let mut sheet = sheet.to_vec();
    let mut answers = Vec::new();
    for &key in keys {
        let (next, answer) = event(image, &mut sheet, &session, key);
        session = next;
        answers.push(answer);
    }
    (answers, sheet, session)
}

/// The line's data cells and the edit cursor's column.
fn shown(image: &[u8], sheet: &[u8], session: &Session) -> (String, Option<usize>) {
    let mut picture = [0; 32];
    let (refusal, cursor) = draw(image, sheet, session, &mut picture);
    assert_eq!(refusal, 0);
    let data = String::from_utf8(picture[17..31].to_vec()).expect("letters");
    (data.trim_end().to_string(), cursor.map(|(_, column)| column))
}

/// A session that visits the field in this part with this working date.
fn visiting(image: &[u8], sheet: &[u8], chosen: usize, date: Date) -> Session {
    let (_, mut session) = open(image, &mut sheet.to_vec(), 16, 2);
    let mut cells = [0; 32];
    cells[..3].copy_from_slice(&date);
    session.mode = Mode::Visit(Visit { place: FIELD, chosen, cells });
    session
}

/// The working date of a visit and its part.
fn working(session: &Session) -> (usize, Date) {
    match &session.mode {
        Mode::Visit(visit) => (visit.chosen, [visit.cells[0], visit.cells[1], visit.cells[2]]),
        _ => panic!("a visit"),
    }
}

/// Whether a session with this working date fits, by Event and by Draw.
fn fits(image: &[u8], sheet: &[u8], chosen: usize, date: Date) -> bool {
    let session = visiting(image, sheet, chosen, date);
    let (next, answer) = event(image, &mut sheet.to_vec(), &session, SECOND);
    let refusal = draw(image, sheet, &session, &mut [0; 32]).0;
    match answer {
        Refused(12) => assert_eq!((next, refusal), (session, 12)),
        _ => assert_eq!((answer, next, refusal), (Taken, session, 0)),
    }
    refusal == 0
}

#[test]
fn leap_years() {
    for year in [0, 4, 400, 1600, 1896, 1904, 1996, 2000, 2004, 2024, 2096, 2104, 2400, 9996] {
        assert!(is_leap_year(year), "{year}");
        assert_eq!(month_end(year, FEBRUARY), 29);
    }
    for year in [1, 2, 3, 100, 200, 300, 500, 1700, 1800, 1900, 1999, 2001, 2100, 2200, 2300, 9900, 9999] {
        assert!(!is_leap_year(year), "{year}");
        assert_eq!(month_end(year, FEBRUARY), 28);
    }
}

#[test]
fn months() {
    let ends = |year: i64| (1..=12).map(|month| month_end(year, month)).collect::<Vec<_>>();
    assert_eq!(ends(2023), [31, 28, 31, 30, 31, 30, 31, 31, 30, 31, 30, 31]);
    assert_eq!(ends(0), [31, 29, 31, 30, 31, 30, 31, 31, 30, 31, 30, 31]);
}

/// 400 years are 20,871 weeks; from 1 March of year 0 to 1 January 2000 there are 730,425 days.
#[test]
fn days_counted() {
    let days =
        |years: std::ops::Range<i64>| years.flat_map(|year| (1..=12).map(move |month| month_end(year, month))).sum::<i64>();
    assert_eq!(days(0..400), 20_871 * 7);
    assert_eq!(days(1900..2300), 20_871 * 7);
    assert_eq!(days(0..2000) - 31 - 29, 730_425);
    assert_eq!(days(1970..2000), 10_957);
}

#[test]
fn long_defaults() {
    for year in [0, 4, 400, 2000, 2024, 2400] {
        assert_eq!([28, 29, 30, 31].map(|day| long_refusal([year, 2, day])), [0, 0, 9, 9], "{year}");
    }
    for year in [1, 100, 1900, 2023, 2100, 9999] {
        assert_eq!([28, 29, 30, 31].map(|day| long_refusal([year, 2, day])), [0, 9, 9, 9], "{year}");
    }
    for month in [4, 6, 9, 11] {
        assert_eq!([30, 31, 32].map(|day| long_refusal([2024, month, day])), [0, 9, 9], "{month}");
    }
    for month in [1, 3, 5, 7, 8, 10, 12] {
        assert_eq!([0, 1, 31, 32].map(|day| long_refusal([2024, month, day])), [9, 0, 0, 9], "{month}");
    }
    assert_eq!([[0, 1, 1], [9999, 12, 31], [10_000, 1, 1], [0, 0, 1], [0, 13, 1]].map(long_refusal), [0, 0, 9, 9, 9]);
}

/// R51: 00 is 2000, a leap year; 99 is 2099. 100 is out of range, though 2100 is a year.
#[test]
fn short_defaults() {
    for year in [0, 4, 24, 96] {
        assert_eq!([28, 29, 30].map(|day| short_refusal([year, 2, day])), [0, 0, 9], "{year}");
    }
    for year in [1, 2, 3, 50, 99] {
        assert_eq!([28, 29, 30].map(|day| short_refusal([year, 2, day])), [0, 9, 9], "{year}");
    }
    assert_eq!([[99, 12, 31], [99, 11, 31], [99, 11, 30], [100, 1, 1]].map(short_refusal), [0, 9, 0, 9]);
}

/// A default that is not real comes at its component: 6 and 7 there come first, 10 later.
#[test]
fn order_at_an_unreal_default() {
    let bad = long_image([2023, 2, 29]);
    let refusal = |image: &[u8], sheet: usize| open(image, &mut vec![0; sheet], 16, 2).0;
    assert_eq!(refusal(&bad, 0), 9);
    assert_eq!(refusal(&bad, 4097), 9);
    assert_eq!(refusal(&bad[..bad.len() - 1], 4), 6);
    assert_eq!(refusal(&long_image([2023, 2, 28]), 3), 10);
}

#[test]
fn dates_in_the_sheet() {
    let image = long_image([2024, 5, 6]);
    let look = |date: Date| {
        let (_, sheet, session) = sat(&image, &long(date), &[]);
        shown(&image, &sheet, &session).0
    };
    assert_eq!(look([1900, 2, 28]), "1900-02-28");
    assert_eq!(look([1900, 2, 29]), "##########");
    assert_eq!(look([2000, 2, 29]), "2000-02-29");
    assert_eq!(look([2100, 2, 29]), "##########");
    assert_eq!(look([2400, 2, 29]), "2400-02-29");
    assert_eq!(look([0, 2, 29]), "0000-02-29");
    assert_eq!(look([0, 2, 30]), "##########");
    assert_eq!(look([9999, 12, 31]), "9999-12-31");
    assert_eq!(look([9999, 11, 31]), "##########");
    assert_eq!(look([10_000, 11, 30]), "##########");
    assert_eq!(look([2024, 13, 1]), "##########");
    let image = short_image([24, 5, 6]);
    let look = |date: Date| {
        let (_, sheet, session) = sat(&image, &short(date), &[]);
        shown(&image, &sheet, &session).0
    };
    assert_eq!(look([0, 2, 29]), "00-02-29");
    assert_eq!(look([1, 2, 29]), "########");
    assert_eq!(look([1, 6, 31]), "########");
    assert_eq!(look([1, 7, 31]), "01-07-31");
}

/// A visit of a date that is not real starts from the default, and ENTER three times stores that.
#[test]
fn visits_start_from_a_real_date() {
    let image = long_image([2024, 5, 6]);
    let (_, sheet, session) = sat(&image, &long([2023, 2, 31]), &[ENTER]);
    assert_eq!(working(&session), (YEAR_PART, [2024, 5, 6]));
    assert_eq!(shown(&image, &sheet, &session), ("2024-05-06".to_string(), Some(1)));
    assert_eq!(sheet, long([2023, 2, 31]));
    let (answers, sheet, _) = sat(&image, &long([2023, 2, 31]), &[ENTER; 4]);
    assert_eq!(answers, [Taken, Taken, Taken, Finished(FIELD)]);
    assert_eq!(sheet, long([2024, 5, 6]));
    let (_, _, session) = sat(&image, &long([2024, 2, 29]), &[ENTER]);
    assert_eq!(working(&session), (YEAR_PART, [2024, 2, 29]));
}

/// Steps of the month leave the day, and the date is drawn in its digits; ENTER from the month lowers the day.
#[test]
fn the_thirty_first_of_february() {
    let image = long_image([2023, 1, 31]);
    let sheet = long([2023, 1, 31]);
    let (answers, _, session) = sat(&image, &sheet, &[ENTER, ENTER, UP]);
    assert_eq!(answers, [Taken; 3]);
    assert_eq!(working(&session), (MONTH_PART, [2023, 2, 31]));
    assert_eq!(shown(&image, &sheet, &session), ("2023-02-31".to_string(), Some(6)));
    let (answers, _, session) = go_on(&image, &sheet, session, &[ENTER]);
    assert_eq!((&answers[..], working(&session)), (&[Taken][..], (DAY_PART, [2023, 2, 28])));
    assert_eq!(shown(&image, &sheet, &session), ("2023-02-28".to_string(), Some(9)));
    let (answers, sheet, session) = go_on(&image, &sheet, session, &[UP, ENTER]);
    assert_eq!(answers, [Flash, Finished(FIELD)]);
    assert_eq!(sheet, long([2023, 2, 28]));
    assert_eq!(session.mode, Mode::Browsing);
}

/// What a visit of this date becomes by ENTER from the month.
fn lowered(is_long: bool, date: Date) -> Date {
    let image = if is_long { long_image([24, 1, 1]) } else { short_image([24, 1, 1]) };
    let sheet = [0; 4];
    let session = visiting(&image, &sheet, MONTH_PART, date);
    let (answers, _, session) = go_on(&image, &sheet, session, &[ENTER]);
    assert_eq!(answers, [Taken]);
    let (part, date) = working(&session);
    assert_eq!(part, DAY_PART);
    date
}

#[test]
fn lowered_to_the_least() {
    for (date, day) in [
        ([2023, 2, 31], 28),
        ([2023, 2, 29], 28),
        ([2023, 2, 28], 28),
        ([2023, 2, 27], 27),
        ([2024, 2, 31], 29),
        ([2024, 2, 30], 29),
        ([2024, 2, 29], 29),
        ([1900, 2, 29], 28),
        ([2000, 2, 31], 29),
        ([2100, 2, 31], 28),
        ([0, 2, 31], 29),
        ([2024, 4, 31], 30),
        ([2024, 4, 30], 30),
        ([9999, 11, 31], 30),
        ([9999, 12, 31], 31),
        ([2024, 1, 1], 1),
    ] {
        let [year, month, _] = date;
        assert_eq!(lowered(true, date), [year, month, day], "{date:?}");
    }
    assert_eq!(lowered(false, [0, 2, 31]), [0, 2, 29]);
    assert_eq!(lowered(false, [99, 2, 31]), [99, 2, 28]);
    assert_eq!(lowered(false, [99, 9, 31]), [99, 9, 30]);
}

/// Steps of the year and ENTER from it leave the day, also where the date is then not real.
#[test]
fn year_leaves_the_day() {
    let image = long_image([2024, 2, 29]);
    let sheet = long([2024, 2, 29]);
    let (answers, _, session) = sat(&image, &sheet, &[ENTER, DOWN]);
    assert_eq!((&answers[..], working(&session)), (&[Taken; 2][..], (YEAR_PART, [2023, 2, 29])));
    assert_eq!(shown(&image, &sheet, &session), ("2023-02-29".to_string(), Some(1)));
    let (answers, _, session) = go_on(&image, &sheet, session, &[ENTER]);
    assert_eq!((&answers[..], working(&session)), (&[Taken][..], (MONTH_PART, [2023, 2, 29])));
    let (answers, left, _) = go_on(&image, &sheet, session.clone(), &[UP, ENTER, ENTER]);
    assert_eq!(answers, [Taken, Taken, Finished(FIELD)]);
    assert_eq!(left, long([2023, 3, 29]));
    let (_, left, _) = go_on(&image, &sheet, session, &[ENTER, ENTER]);
    assert_eq!(left, long([2023, 2, 28]));
}

/// Down to 2023 and back to 2024 keeps the 29th, as nothing was lowered on the way.
#[test]
fn a_day_comes_back_before_the_month_is_left() {
    let image = long_image([2024, 2, 29]);
    let (_, left, _) = sat(&image, &long([2024, 2, 29]), &[ENTER, DOWN, UP, ENTER, ENTER, ENTER]);
    assert_eq!(left, long([2024, 2, 29]));
    let (_, left, _) = sat(&image, &long([2024, 3, 31]), &[ENTER, ENTER, DOWN, UP, ENTER, ENTER]);
    assert_eq!(left, long([2024, 3, 31]));
}

#[test]
fn year_and_month_end_where_they_did() {
    let image = long_image([2024, 2, 29]);
    let answer = |part: usize, date: Date, key: usize| {
        let sheet = long([2024, 2, 29]);
        go_on(&image, &sheet, visiting(&image, &sheet, part, date), &[key]).0[0]
    };
    assert_eq!([UP, DOWN].map(|key| answer(YEAR_PART, [9999, 2, 31], key)), [Flash, Taken]);
    assert_eq!([UP, DOWN].map(|key| answer(YEAR_PART, [0, 2, 31], key)), [Taken, Flash]);
    assert_eq!([UP, DOWN].map(|key| answer(MONTH_PART, [2024, 12, 31], key)), [Flash, Taken]);
    assert_eq!([UP, DOWN].map(|key| answer(MONTH_PART, [2024, 1, 31], key)), [Taken, Flash]);
    for key in [LEFT, RIGHT, POINT, 0, 9] {
        assert_eq!(answer(MONTH_PART, [2024, 2, 31], key), Flash);
        assert_eq!(answer(DAY_PART, [2024, 2, 29], key), Flash);
    }
}

/// The day steps from 1 to its month's end.
#[test]
fn day_part_steps_to_the_end() {
    for (date, is_long) in [
        ([2023, 2, 28], true),
        ([2024, 2, 29], true),
        ([1900, 2, 28], true),
        ([0, 2, 29], true),
        ([2024, 4, 30], true),
        ([2024, 12, 31], true),
        ([0, 2, 29], false),
        ([1, 2, 28], false),
        ([99, 6, 30], false),
        ([99, 7, 31], false),
    ] {
        let image = if is_long { long_image([24, 1, 1]) } else { short_image([24, 1, 1]) };
        let sheet = [0; 4];
        let [year, month, end] = date;
        let (answers, _, session) = go_on(&image, &sheet, visiting(&image, &sheet, DAY_PART, date), &[UP, UP]);
        assert_eq!((answers, working(&session)), (vec![Flash; 2], (DAY_PART, date)));
        let (answers, _, session) = go_on(&image, &sheet, visiting(&image, &sheet, DAY_PART, [year, month, 1]), &[DOWN; 2]);
        assert_eq!((answers, working(&session)), (vec![Flash; 2], (DAY_PART, [year, month, 1])));
        let up_from_1 = vec![UP; end as usize];
        let (answers, _, session) = go_on(&image, &sheet, visiting(&image, &sheet, DAY_PART, [year, month, 1]), &up_from_1);
        assert_eq!(working(&session), (DAY_PART, date));
        assert_eq!(answers.iter().filter(|&&answer| answer == Flash).count(), 1);
        assert_eq!(answers.last(), Some(&Flash));
    }
}

/// R49: in the year and month parts the day is 1 to 31, in the day part the date is real.
#[test]
fn sessions_that_fit() {
    let image = long_image([2024, 5, 6]);
    let sheet = long([2024, 5, 6]);
    let parts = |date: Date| [YEAR_PART, MONTH_PART, DAY_PART].map(|part| fits(&image, &sheet, part, date));
    assert_eq!(parts([2024, 2, 29]), [true; 3]);
    assert_eq!(parts([2023, 2, 28]), [true; 3]);
    assert_eq!(parts([9999, 12, 31]), [true; 3]);
    assert_eq!(parts([0, 2, 29]), [true; 3]);
    assert_eq!(parts([2400, 2, 29]), [true; 3]);
    for date in [[2023, 2, 29], [2023, 2, 31], [1900, 2, 29], [2100, 2, 29], [2024, 2, 30], [0, 2, 30], [2024, 4, 31]] {
        assert_eq!(parts(date), [true, true, false], "{date:?}");
    }
    for date in [[2024, 2, 0], [2024, 1, 32], [2024, 0, 1], [2024, 13, 1], [10_000, 1, 1], [2024, 13, 31]] {
        assert_eq!(parts(date), [false; 3], "{date:?}");
    }
    assert!(!fits(&image, &sheet, 3, [2024, 2, 29]));
}

#[test]
fn short_sessions_that_fit() {
    let image = short_image([24, 5, 6]);
    let sheet = short([24, 5, 6]);
    let parts = |date: Date| [YEAR_PART, MONTH_PART, DAY_PART].map(|part| fits(&image, &sheet, part, date));
    assert_eq!(parts([0, 2, 29]), [true; 3]);
    assert_eq!(parts([96, 2, 29]), [true; 3]);
    for date in [[1, 2, 29], [0, 2, 30], [99, 2, 31], [99, 11, 31]] {
        assert_eq!(parts(date), [true, true, false], "{date:?}");
    }
    assert_eq!(parts([100, 1, 1]), [false; 3]);
    assert_eq!(parts([2024, 1, 1]), [false; 3]);
}

/// A session that does not fit is handed back by every key, and 12 comes before 13.
#[test]
fn nothing_moves_an_unreal_day() {
    let image = long_image([2024, 5, 6]);
    let sheet = long([2024, 5, 6]);
    let session = visiting(&image, &sheet, DAY_PART, [2023, 2, 29]);
    for key in [0, POINT, UP, DOWN, LEFT, RIGHT, ENTER, SECOND, 17] {
        let (answers, left, next) = go_on(&image, &sheet, session.clone(), &[key]);
        assert_eq!((answers, left, next), (vec![Refused(12)], sheet.clone(), session.clone()));
    }
    let bytes = session_to_bytes(&LAYOUT, &session);
    assert_eq!(session_from_bytes(&LAYOUT, &bytes), session);
}

/// Fits asks nothing of the sheet (R20b): a date in it that is not real does not matter to the visit of another.
#[test]
fn sheet_does_not_matter_to_a_visit() {
    let image = long_image([2024, 5, 6]);
    let sheet = long([2023, 2, 31]);
    let session = visiting(&image, &sheet, DAY_PART, [2024, 2, 29]);
    assert_eq!(shown(&image, &sheet, &session), ("2024-02-29".to_string(), Some(9)));
    let (answers, left, _) = go_on(&image, &sheet, session, &[ENTER]);
    assert_eq!((answers, left), (vec![Finished(FIELD)], long([2024, 2, 29])));
}

/// The generator's menus of dates are accepted; with a default that is not real they are refused for it.
#[test]
fn menus_of_dates() {
    for seed in 0..300 {
        let good = dates(&mut Random::new(seed));
        assert!(check(&good.image, good.sheet.len()).is_ok(), "{seed}");
        let bad = unreal_default(&mut Random::new(seed));
        assert_eq!(check(&bad.image, bad.sheet.len()).err(), Some(9), "{seed}");
    }
}
