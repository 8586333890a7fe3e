//! Records of sittings (02 No. 2): numbers in groups, recording, playing, and the order of refusals on both sides.

use reference::generator::lay::{lay, ComponentPlan, LinePlan, MenuPlan, TablePlan};
use reference::keys::*;
use reference::layout::LAYOUT;
use reference::record::*;
use reference::{event, open, Session};

/// An editable option of two items at sheet byte 0, default 0; an editable uchar dd at byte 1, default 5; a trigger.
const OPTION: &[u8] = b"\x34\0\0\0\0\0\x11\x02\x03\0\x02no\x03yes";
const DD: &[u8] = &[0x20, 0, 0, 0, 1, 0, 5];
const TRIGGER: &[u8] = &[0x17, 0, 0, 0];
const TEXT: &[u8] = b"\x15\x01x";

fn image(components: &[&[u8]]) -> Vec<u8> {
    let components = components.iter().map(|bytes| ComponentPlan { bytes: bytes.to_vec(), sheet_size: 0 }).collect();
    let line = LinePlan { components, ..LinePlan::default() };
    let table = TablePlan { title: b"T".to_vec(), lines: vec![line], gap: vec![] };
    lay(&MenuPlan { delays: [0, 0, 0], tables: vec![table] }).image
}

/// Its components stand at 14, 32 and 40; a sheet for it has two bytes.
fn paper() -> Vec<u8> {
    image(&[OPTION, DD, TRIGGER])
}

/// What playing on the paper is refused with, by records and lists; nothing may change then.
fn refusal_with(image: &[u8], columns: usize, record: &[u8], answers: usize) -> u8 {
    let mut sheet = [9; 4];
    let mut list = vec![7; answers];
    let replay = play(image, &mut sheet, columns, 4, record, &mut list);
    if replay.refusal != 0 {
        assert_eq!((replay.events, replay.session), (0, Session::closed()));
        assert_eq!((sheet, list), ([9; 4], vec![7; answers]));
    }
    replay.refusal
}

/// The same with a list that is long enough.
fn refusal(record: &[u8]) -> u8 {
    refusal_with(&paper(), 20, record, 10)
}

#[test]
fn numbers_in_groups() {
    let numbers: [(usize, &[u8]); 12] = [
        (0, &[0]),
        (1, &[1]),
        (127, &[0x7F]),
        (128, &[0x81, 0]),
        (129, &[0x81, 1]),
        (255, &[0x81, 0x7F]),
        (256, &[0x82, 0]),
        (16_383, &[0xFF, 0x7F]),
        (16_384, &[0x81, 0x80, 0]),
        (32_768, &[0x82, 0x80, 0]),
        (65_534, &[0x83, 0xFF, 0x7E]),
        (65_535, &[0x83, 0xFF, 0x7F]),
    ];
    for (number, bytes) in numbers {
        assert_eq!(write_number(number), bytes, "{number}");
        assert_eq!(read_number(bytes), Ok((number, &[][..])), "{number}");
        assert_eq!(read_number(&[bytes, &[0x80, 5]].concat()), Ok((number, &[0x80, 5][..])), "{number}");
    }
}

#[test]
fn every_number_reads_back() {
    for number in 0..=HIGHEST_NUMBER {
        assert_eq!(read_number(&write_number(number)), Ok((number, &[][..])));
    }
    assert_eq!(read_number(&write_number(HIGHEST_NUMBER + 1)), Err(Broken::TooHigh));
}

/// What is read is what is written for that number, so nothing else is accepted.
#[test]
fn only_what_is_written_is_read() {
    let mut read = 0;
    for start in 0..=u16::MAX {
        for third in [0, 1, 0x7E, 0x7F, 0x80, 0x81, 0xFE, 0xFF] {
            let bytes = [start.to_be_bytes().as_slice(), &[third]].concat();
            if let Ok((number, behind)) = read_number(&bytes) {
                assert_eq!(write_number(number), bytes[..3 - behind.len()]);
                read += 1;
            }
        }
    }
    // by first bytes: one group; two groups; three groups below 2 to the 16th with one of the four last groups
    assert_eq!(read, 128 * 256 * 8 + 127 * 128 * 8 + 3 * 128 * 4);
}

#[test]
fn broken_numbers() {
    let broken: [(&[u8], Broken); 14] = [
        (&[], Broken::Missing),
        (&[0x80], Broken::LeadingZero),
        (&[0x80, 0], Broken::LeadingZero),
        (&[0x80, 1], Broken::LeadingZero),
        (&[0x80, 0x81, 0], Broken::LeadingZero),
        (&[0x81], Broken::CutOff),
        (&[0xFF, 0xFF], Broken::CutOff),
        (&[0x81, 0x80], Broken::CutOff),
        (&[0x84, 0x80, 0], Broken::TooHigh), // 65,536
        (&[0x84, 0x80, 1], Broken::TooHigh),
        (&[0xFF, 0xFF, 0x7F], Broken::TooHigh),
        (&[0x81, 0x80, 0x80], Broken::FourthGroup),
        (&[0x81, 0x80, 0x80, 0], Broken::FourthGroup),
        (&[0xFF, 0xFF, 0xFF, 0xFF], Broken::FourthGroup),
    ];
    for (bytes, how) in broken {
        assert_eq!(read_number(bytes), Err(how), "{bytes:x?}");
    }
}

#[test]
fn recording_into_room() {
    let events = [ENTER as u8, RIGHT as u8, 0, SECOND as u8];
    let written = [1, 4, 15, 14, 0, 16];
    let mut exact = [0xEE; 6];
    assert_eq!((record(&events, &mut exact), exact), ((0, 6), written));
    let mut longer = [0xEE; 9];
    assert_eq!(record(&events, &mut longer), (0, 6));
    assert_eq!(longer, [1, 4, 15, 14, 0, 16, 0xEE, 0xEE, 0xEE]);
    for length in 0..6 {
        let mut shorter = vec![0xEE; length];
        assert_eq!(record(&events, &mut shorter), (25, 0));
        assert_eq!(shorter, vec![0xEE; length]);
    }
}

#[test]
fn recording_no_events() {
    let mut room = [0xEE; 3];
    assert_eq!((record(&[], &mut room), room), ((0, 2), [1, 0, 0xEE]));
    assert_eq!((record(&[], &mut room[..2]), room), ((0, 2), [1, 0, 0xEE]));
    assert_eq!(record(&[], &mut [0]), (25, 0));
    assert_eq!(record(&[], &mut []), (25, 0));
}

#[test]
fn recording_bad_events() {
    for bad in [17, 18, 127, 128, 144, 255] {
        for events in [vec![bad], vec![bad, 0], vec![0, 16, bad]] {
            let mut room = [0xEE; 9];
            assert_eq!((record(&events, &mut room), room), ((13, 0), [0xEE; 9]), "{events:?}");
            assert_eq!(record(&events, &mut []), (13, 0), "{events:?} before 25");
        }
    }
}

/// The count takes one more group at 128 and at 16,384; 65,535 events are the most.
#[test]
fn recording_many_events() {
    for (count, head) in [(127, 2), (128, 3), (16_383, 3), (16_384, 4), (65_535, 4)] {
        let events = vec![SECOND as u8; count];
        let mut room = vec![0xEE; head + count + 1];
        assert_eq!(record(&events, &mut room), (0, head + count), "{count}");
        assert_eq!(room[..head], [vec![1], write_number(count)].concat());
        assert_eq!(room[head..], [events.clone(), vec![0xEE]].concat());
        assert_eq!(record(&events, &mut room[..head + count]), (0, head + count));
        room.fill(0xEE);
        assert_eq!(record(&events, &mut room[..head + count - 1]), (25, 0));
        assert!(room.iter().all(|&byte| byte == 0xEE));
    }
    for (count, event) in [(65_536, 16), (65_537, 0), (65_536, 17), (131_072, 16)] {
        let mut room = vec![0xEE; count + 9];
        assert_eq!(record(&vec![event; count], &mut room), (16, 0), "{count} of {event}");
        assert_eq!(record(&vec![event; count], &mut []), (16, 0), "before 25");
        assert!(room.iter().all(|&byte| byte == 0xEE));
    }
}

#[test]
fn record_that_is_short_or_has_bytes_over() {
    assert_eq!(refusal(&[]), 16);
    assert_eq!(refusal(&[1]), 16);
    assert_eq!(refusal(&[1, 0]), 0);
    assert_eq!(refusal(&[1, 0, 0]), 16);
    assert_eq!(refusal(&[1, 0, 0x80]), 16);
    assert_eq!(refusal(&[1, 1]), 16);
    assert_eq!(refusal(&[1, 1, 0]), 0);
    assert_eq!(refusal(&[1, 1, 0, 0]), 16);
    assert_eq!(refusal(&[1, 2, 0]), 16);
    assert_eq!(refusal(&[1, 0x81, 0]), 16); // 128 events, and none there
    assert_eq!(refusal(&[1, 0x83, 0xFF, 0x7F, 0]), 16);
}

#[test]
fn form_numbers() {
    for form in [0, 2, 3, 127, 128, 129, 256, 257, 16_383, 16_384, 16_385, 32_769, 65_535] {
        for rest in [&[][..], &[0], &[0, 0], &[1, 17], &[0x80], &[2, 17, 0x80, 1]] {
            assert_eq!(refusal(&[&write_number(form), rest].concat()), 17, "form {form} and {rest:?}");
        }
    }
    let broken: [&[u8]; 9] = [
        &[0x80],
        &[0x80, 1],
        &[0x80, 0],
        &[0x80, 0x80, 1],
        &[0x81],
        &[0x81, 0x80],
        &[0x84, 0x80, 0],
        &[0x84, 0x80, 1],
        &[0x81, 0x80, 0x80, 0],
    ];
    for form in broken {
        assert_eq!(refusal(form), 16, "{form:x?}");
        if form.last().is_some_and(|&last| last < ANOTHER) {
            assert_eq!(refusal(&[form, &[0]].concat()), 16, "{form:x?}");
            assert_eq!(refusal(&[form, &[1, 17]].concat()), 16, "{form:x?}");
        }
    }
}

#[test]
fn broken_counts_and_events() {
    let broken: [&[u8]; 7] =
        [&[0x80, 1], &[0x80, 0], &[0x81, 0x80, 0x80, 0], &[0x84, 0x80, 0], &[0xFF, 0xFF, 0x7F], &[0x81], &[0x81, 0x80]];
    for number in broken {
        assert_eq!(refusal(&[&[1], number].concat()), 16, "count {number:x?}");
        assert_eq!(refusal(&[&[1, 1], number].concat()), 16, "event {number:x?}");
        assert_eq!(refusal(&[&[1, 2, 16], number].concat()), 16, "last event {number:x?}");
    }
    assert_eq!(refusal(&[1, 2, 0x80, 1, 16]), 16);
}

/// The whole record is looked through before any 13.
#[test]
fn broken_numbers_come_before_bad_events() {
    assert_eq!(refusal(&[1, 2, 17, 0x80, 1]), 16);
    assert_eq!(refusal(&[1, 2, 17, 0x81]), 16);
    assert_eq!(refusal(&[1, 2, 17]), 16);
    assert_eq!(refusal(&[1, 1, 17, 0]), 16);
    assert_eq!(refusal(&[1, 3, 17, 0x84, 0x80, 0, 0]), 16);
    assert_eq!(refusal(&[1, 2, 17, 0]), 13);
}

#[test]
fn bad_events() {
    for event in [17, 18, 127, 128, 144, 255, 256, 272, 16_384, 65_535] {
        let number = write_number(event);
        assert_eq!(refusal(&[&[1, 1], &number[..]].concat()), 13, "{event}");
        assert_eq!(refusal(&[&[1, 3, 0, 16], &number[..]].concat()), 13, "{event}");
        assert_eq!(refusal_with(&paper(), 20, &[&[1, 1], &number[..]].concat(), 0), 13, "{event} before 25");
    }
    for event in 0..=16 {
        assert_eq!(refusal(&[1, 1, event]), 0);
    }
}

#[test]
fn lists_shorter_than_the_events() {
    let three = [1, 3, 16, 16, 16];
    assert_eq!([0, 1, 2, 3, 4].map(|count| refusal_with(&paper(), 20, &three, count)), [25, 25, 25, 0, 0]);
    assert_eq!(refusal_with(&paper(), 20, &[1, 0], 0), 0);
    assert_eq!(refusal_with(&paper(), 13, &three, 2), 25, "before 1");
    assert_eq!(refusal_with(&[], 20, &three, 2), 25, "before 2");
    assert_eq!(refusal_with(&[], 13, &[1, 1, 17], 0), 13, "before 25, 1 and 2");
    assert_eq!(refusal_with(&[], 13, &[2], 0), 17);
    assert_eq!(refusal_with(&[], 13, &[], 0), 16);
}

#[test]
fn what_open_refuses() {
    let good = [1, 1, 16];
    let on = |image: &[u8]| refusal_with(image, 20, &good, 1);
    let with = |at: usize, byte: u8| {
        let mut bytes = paper();
        bytes[at] = byte;
        bytes
    };
    assert_eq!([13, 14, 20, 21, 270].map(|columns| refusal_with(&paper(), columns, &good, 1)), [1, 0, 0, 1, 1]);
    assert_eq!(refusal_with(&[], 13, &good, 1), 1);
    assert_eq!(on(&paper()[..9]), 2);
    assert_eq!(on(&with(0, 0)), 3);
    assert_eq!(on(&with(4, 5)), 4);
    assert_eq!(on(&with(9, 0)), 5);
    assert_eq!(on(&paper()[..20]), 6);
    assert_eq!(on(&with(12, 1)), 7); // padding before the line
    assert_eq!(on(&image(&[TRIGGER; 257])), 8);
    assert_eq!(on(&image(&[&[0x20, 0, 0, 0, 0, 0, 100]])), 9);
    assert_eq!(on(&image(&[&[0x20, 0, 0, 0, 4, 0, 5]])), 10); // the sheet has four bytes
    assert_eq!(on(&image(&[DD, DD])), 11);
    assert_eq!(on(&image(&[TEXT])), 0);
}

/// Opens on 20 x 4 and plays the events one by one: what a replay must give.
fn sat(image: &[u8], sheet: &mut [u8], events: &[u8]) -> (Session, Vec<u32>) {
    let (refusal, mut session) = open(image, sheet, 20, 4);
    assert_eq!(refusal, 0);
    let mut answers = Vec::new();
    for &number in events {
        let (next, answer) = event(image, sheet, &session, usize::from(number));
        session = next;
        answers.push(answer.number());
    }
    (session, answers)
}

#[test]
fn replay_gives_session_sheet_and_answers() {
    // the option to yes, the digits 4 and 2, the trigger fired twice, and ENTER past it; a second and a key that flashes
    let events = [15, 14, 15, 4, 2, 15, 11, 14, 15, 16, 10];
    let written = write_record(&events);
    for played in 0..=events.len() {
        let events = &events[..played];
        let mut expected = [9; 4];
        let (session, answers) = sat(&paper(), &mut expected, events);
        for spare in [0, 1, 5] {
            let mut sheet = [9; 4];
            let mut list = vec![7; played + spare];
            let replay = play(&paper(), &mut sheet, 20, 4, &write_record(events), &mut list);
            assert_eq!((replay.refusal, replay.events, &replay.session), (0, played, &session));
            assert_eq!(sheet, expected);
            assert_eq!(list, [answers.clone(), vec![7; spare]].concat());
        }
    }
    let mut sheet = [9; 4];
    let mut list = [7; 12];
    assert_eq!(play(&paper(), &mut sheet, 20, 4, &written, &mut list).events, 11);
    assert_eq!(list, [0, 0, 65_550, 0, 0, 65_568, 131_112, 131_112, 0, 0, 1, 7]);
    assert_eq!(sheet, [1, 42, 9, 9]);
}

#[test]
fn replay_of_no_events_is_open() {
    let mut sheet = [9; 4];
    let (_, session) = open(&paper(), &mut [9; 4], 14, 2);
    let mut list = [7; 2];
    let replay = play(&paper(), &mut sheet, 14, 2, &[1, 0], &mut list);
    assert_eq!(replay, Replay { refusal: 0, events: 0, session });
    assert_eq!((sheet, list), ([0, 5, 9, 9], [7; 2]));
}

/// 65,535 events are played; one more can't be stated.
#[test]
fn replay_of_the_most_events() {
    let image = image(&[TEXT]);
    let events = vec![SECOND as u8; HIGHEST_NUMBER];
    let written = write_record(&events);
    let mut list = vec![7; HIGHEST_NUMBER + 1];
    let replay = play(&image, &mut [], 20, 4, &written, &mut list);
    assert_eq!((replay.refusal, replay.events, replay.session.idle), (0, HIGHEST_NUMBER, 255));
    assert_eq!(list, [vec![0; HIGHEST_NUMBER], vec![7]].concat());
    assert_eq!(refusal_with(&image, 20, &written, HIGHEST_NUMBER - 1), 25);
    assert_eq!(refusal_with(&image, 20, &written[..written.len() - 1], HIGHEST_NUMBER), 16);
    let more = [vec![1, 0x84, 0x80, 0], vec![16; HIGHEST_NUMBER + 1]].concat();
    assert_eq!(refusal_with(&image, 20, &more, HIGHEST_NUMBER + 1), 16);
}

#[test]
fn lent_session_of_another_length() {
    let good = [1, 1, 15];
    for length in [0, 1, LAYOUT.bytes - 1, LAYOUT.bytes + 1, 300] {
        let mut sheet = [9; 4];
        let mut list = [7; 2];
        let mut lent = |columns: usize, record: &[u8]| play_into(length, &paper(), &mut sheet, columns, 4, record, &mut list);
        assert_eq!(lent(20, &good), (12, 0, None));
        assert_eq!(lent(13, &good), (1, 0, None));
        assert_eq!(lent(13, &[1, 3, 0, 0, 0]), (25, 0, None));
        assert_eq!(lent(13, &[1, 1, 17]), (13, 0, None));
        assert_eq!(lent(13, &[2]), (17, 0, None));
        assert_eq!(lent(13, &[]), (16, 0, None));
        assert_eq!(play_into(length, &paper()[..9], &mut sheet, 20, 4, &good, &mut list), (2, 0, None));
        assert_eq!((sheet, list), ([9; 4], [7; 2]));
    }
    let mut list = [7; 2];
    let (refusal, events, session) = play_into(LAYOUT.bytes, &paper(), &mut [9; 4], 20, 4, &good, &mut list);
    assert_eq!((refusal, events, list), (0, 1, [0, 7]));
    assert!(session.is_some_and(|session| session != Session::closed()));
    assert_eq!(play_into(LAYOUT.bytes, &paper(), &mut [9; 4], 20, 4, &[], &mut list).2, Some(Session::closed()));
}
