//! Document 01: "Cases on each side" and the printed picture.

use reference::keys::*;
use reference::session::Answer::{self, *};
use reference::{draw, event, open, Session};

/// The image of 01's picture: lines 'P1 ' with the option no/yes, and 'Log' with a submenu.
fn printed_image() -> Vec<u8> {
    [
        b"CMF\x00\x04\x00\x00\x00\xFF\xFE".as_slice(),
        b"\x04TEST",
        b"\x01\x1A\x00",                                          // 15: first line, next one 26 bytes on
        b"\x15\x03P1 \x00",                                       // 18: the string and a padding byte
        b"\xB4\x00\x00\x00\x00\x00\x11\x02\x03\x00\x02no\x03yes", // 24: the option at sheet byte 0
        b"\x0A\x1A\x00\x29\x00",                                  // 41: last line, submenu at 10 + 41
        b"\x95\x03Log",                                           // 46
        b"\x03Log\x03\x95\x01x",                                  // 51: the submenu, its line at 55
    ]
    .concat()
}

/// A menu of one table with the title 'T' and one line with this component, whose tag bears edit and last marks.
fn one_field(component: &[u8]) -> Vec<u8> {
    [b"CMF\x00\x04\x00\x00\x00\xFF\xFE\x01T\x00\x03".as_slice(), component].concat()
}

/// Where `one_field` puts its component.
const FIELD: usize = 14;

fn counter(min: i16, max: i16, step: i16, default: i16, width: u8) -> Vec<u8> {
    let mut component = vec![0xAD, 0, 0, 0, 0, 0];
    for number in [min, max, step, default] {
        component.extend(number.to_le_bytes());
    }
    component.push(width);
    one_field(&component)
}

/// Opens on 16 x 4 and plays the events: their answers and the session.
fn play(image: &[u8], sheet: &mut [u8], events: &[usize]) -> (Vec<Answer>, Session) {
    let (refusal, mut session) = open(image, sheet, 16, 4);
    assert_eq!(refusal, 0);
    let mut answers = Vec::new();
    for &key in events {
        let (next, answer) = event(image, sheet, &session, key);
        session = next;
        answers.push(answer);
    }
    (answers, session)
}

/// The rows of a 16 x 4 picture.
fn rows(image: &[u8], sheet: &[u8], session: &Session) -> Vec<String> {
    let mut picture = vec![0; 64];
    assert_eq!(draw(image, sheet, session, &mut picture).0, 0);
    picture.chunks(16).map(|row| String::from_utf8(row.to_vec()).unwrap()).collect()
}

#[test]
fn short_images() {
    let refusal = |image: &[u8]| open(image, &mut [], 16, 4).0;
    assert_eq!(refusal(&[0x43, 0x4D, 0x46, 0, 4, 0, 0, 0, 0xFF]), 2);
    assert_eq!(refusal(&[0x43, 0x4D, 0x46, 0, 4, 0, 0, 0, 0xFF, 0xFE]), 6);
    assert_eq!(refusal(&[0x43, 0x4D, 0x46, 0, 4, 0, 0, 0, 0xFE, 0xFF]), 5);
}

#[test]
fn counter_near_its_ends() {
    let image = counter(-5, 100, 10, 98, 3);
    let mut sheet = [0; 2];
    assert_eq!(play(&image, &mut sheet, &[ENTER, UP, ENTER]).0, [Taken, Flash, Finished(FIELD)]);
    assert_eq!(sheet, [98, 0]);
    assert_eq!(play(&image, &mut sheet, &[ENTER, DOWN, ENTER]).0, [Taken, Taken, Finished(FIELD)]);
    assert_eq!(sheet, [88, 0]);
    let wide = counter(-32768, 32767, 10, 32760, 6);
    assert_eq!(play(&wide, &mut sheet, &[ENTER, UP, ENTER]).0, [Taken, Flash, Finished(FIELD)]);
    assert_eq!(sheet, 32760i16.to_le_bytes());
}

#[test]
fn hours_end_at_23() {
    let image = one_field(&[0xB0, 0, 0, 0, 0, 0, 23, 59]);
    let mut sheet = [0; 2];
    let (answers, _) = play(&image, &mut sheet, &[ENTER, UP, DOWN, ENTER, UP, LEFT, ENTER]);
    assert_eq!(answers, [Taken, Flash, Taken, Taken, Flash, Flash, Finished(FIELD)]);
    assert_eq!(sheet, [22, 59]);
}

#[test]
fn uchar_ddd_up_to_255() {
    let image = one_field(&[0xA1, 0, 0, 0, 0, 0, 7]);
    let mut sheet = [0];
    assert_eq!(play(&image, &mut sheet, &[ENTER, 2, 5, 5, ENTER]).0.last(), Some(&Finished(FIELD)));
    assert_eq!(sheet, [255]);
    let (answers, session) = play(&image, &mut sheet, &[ENTER, 3, 0, 0, ENTER]);
    assert_eq!(answers.last(), Some(&Flash));
    assert_eq!(sheet, [7]);
    assert_eq!(rows(&image, &sheet, &session)[1], ">300            ");
}

#[test]
fn printed_picture() {
    let image = printed_image();
    let mut sheet = [9];
    let (_, session) = play(&image, &mut sheet, &[]);
    let expected = ["TEST        : 1 ", ">P1 no          ", " Log           >", "                "];
    assert_eq!(rows(&image, &sheet, &session), expected);
    assert_eq!(play(&image, &mut sheet, &[ENTER, RIGHT, ENTER]).0, [Taken, Taken, Finished(24)]);
    assert_eq!(sheet, [1]);
    assert_eq!(play(&image, &mut sheet, &[ENTER, ENTER]).0, [Taken, Finished(24)]);
    assert_eq!(sheet, [0]);
}

#[test]
fn edit_cursor_of_the_printed_option() {
    let image = printed_image();
    let mut sheet = [0];
    let (_, session) = play(&image, &mut sheet, &[ENTER, RIGHT]);
    let mut picture = [0; 64];
    assert_eq!(draw(&image, &sheet, &session, &mut picture), (0, Some((1, 4))));
    assert_eq!(&picture[16..32], b">P1 yes         ");
    assert_eq!(sheet, [0]);
}

#[test]
fn third_second_in_a_row_shows_the_top() {
    let mut image = printed_image();
    image[5] = 3;
    let mut sheet = [0];
    let (_, session) = play(&image, &mut sheet, &[DOWN, RIGHT, SECOND, SECOND]);
    assert_eq!(rows(&image, &sheet, &session)[0], "Log         * 1 ");
    let (_, session) = play(&image, &mut sheet, &[DOWN, RIGHT, SECOND, SECOND, SECOND]);
    assert_eq!(rows(&image, &sheet, &session)[0], "TEST        : 1 ");
    let (_, session) = play(&image, &mut sheet, &[DOWN, RIGHT, SECOND, SECOND, UP, SECOND, SECOND]);
    assert_eq!(rows(&image, &sheet, &session)[0], "Log         * 1 ");
}
