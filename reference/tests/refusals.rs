//! Each refusal number of 01, on images laid out by the generator's layout, and the limits on both sides.

use reference::generator::flaws::Material;
use reference::generator::lay::{lay, ComponentPlan, LinePlan, MenuPlan, TablePlan};
use reference::generator::menus::{menu, Shape};
use reference::keys::*;
use reference::random::Random;
use reference::session::{Answer, Mode};
use reference::{draw, event, open, option_text, Session};

fn component(bytes: &[u8]) -> ComponentPlan {
    ComponentPlan { bytes: bytes.to_vec(), sheet_size: 0 }
}

fn line(components: &[&[u8]]) -> LinePlan {
    LinePlan { components: components.iter().map(|bytes| component(bytes)).collect(), ..LinePlan::default() }
}

fn image(tables: Vec<Vec<LinePlan>>) -> Vec<u8> {
    let tables = tables.into_iter().map(|lines| TablePlan { title: b"T".to_vec(), lines, gap: vec![] }).collect();
    lay(&MenuPlan { delays: [0, 0, 2], tables }).image
}

/// What Open says to a menu of one line with these components.
fn refusal(components: &[&[u8]], sheet_length: usize) -> u8 {
    open(&image(vec![vec![line(components)]]), &mut vec![0; sheet_length], 16, 4).0
}

const TEXT: &[u8] = b"\x15\x01x";
const DD: &[u8] = &[0x20, 0, 0, 0, 0, 0, 5];

/// uchar dd at another place of the sheet.
fn dd_at(var_addr: u8) -> Vec<u8> {
    vec![0x20, 0, 0, 0, var_addr, 0, 5]
}

/// A menu whose one line leads to a submenu behind this password.
fn protected(password: &[u8]) -> Vec<u8> {
    let mut leading = line(&[TEXT]);
    leading.submenu = Some(1);
    leading.password = Some(password.to_vec());
    image(vec![vec![leading], vec![line(&[TEXT])]])
}

fn of_shape(shape: Shape) -> Material {
    let planned = menu(&mut Random::new(7), shape);
    Material { image: lay(&planned.menu).image, sheet: vec![0; planned.sheet_length] }
}

fn shape_refusal(shape: Shape) -> u8 {
    let mut material = of_shape(shape);
    open(&material.image, &mut material.sheet, 16, 4).0
}

#[test]
fn shape_comes_first_in_open_and_last_in_draw() {
    assert_eq!(open(&[], &mut [], 13, 4).0, 1);
    let image = image(vec![vec![line(&[TEXT])]]);
    for (columns, lines) in [(13, 2), (21, 2), (14, 1), (14, 5)] {
        assert_eq!(open(&image, &mut [], columns, lines), (1, Session::closed()));
    }
    let (_, session) = open(&image, &mut [], 14, 2);
    let mut picture = [7; 27];
    assert_eq!(draw(&image, &[], &session, &mut picture), (1, None));
    assert_eq!(picture, [7; 27]);
    assert_eq!(draw(&image, &[], &Session::closed(), &mut picture).0, 12);
}

#[test]
fn forms_left_for_later_need_their_bytes_first() {
    let float: &[u8] = &[0x0B, 0, 0, 0, 0, 0, 0, 0, 0, 0];
    assert_eq!(refusal(&[float], 0), 7);
    assert_eq!(refusal(&[&float[..9]], 0), 6);
    assert_eq!(refusal(&[&[0x35, 0, 0, 0, 0, 0, 1, b'x']], 9), 7);
    assert_eq!(refusal(&[&[0x35, 0, 0, 0, 0, 0, 2, b'x']], 9), 6);
    assert_eq!(refusal(&[&[0x18]], 0), 7);
}

#[test]
fn option_length_and_width_are_fixed() {
    let option = |length: u8, count: u8, width: u8, default: u8| {
        let bytes = [&[0x34, 0, 0, 0, 0, 0, length, count, width, default], b"\x02no\x03yes".as_slice()].concat();
        refusal(&[&bytes], 1)
    };
    assert_eq!(option(17, 2, 3, 1), 0);
    assert_eq!(option(16, 2, 3, 1), 7);
    assert_eq!(option(17, 2, 4, 1), 7);
    assert_eq!(option(17, 3, 3, 1), 6);
    assert_eq!(option(17, 2, 3, 2), 9);
    assert_eq!(refusal(&[&[0x34, 0, 0, 0, 0, 0, 10, 0, 0, 0]], 1), 9);
}

#[test]
fn settings() {
    assert_eq!(refusal(&[&[0x20, 0, 0, 0, 0, 0, 100]], 1), 9);
    assert_eq!(refusal(&[&[0x23, 0, 0, 0, 0, 0, 0x9D]], 1), 0); // -99
    assert_eq!(refusal(&[&[0x23, 0, 0, 0, 0, 0, 0x9C]], 1), 9); // -100
    assert_eq!(refusal(&[&[0x31, 0, 0, 0, 0, 0, 31, 12, 0x0F, 0x27]], 4), 0);
    assert_eq!(refusal(&[&[0x31, 0, 0, 0, 0, 0, 31, 12, 0x10, 0x27]], 4), 9);
    assert_eq!(refusal(&[&[0x31, 0, 0, 0, 0, 0, 0, 12, 0, 0]], 4), 9);
    assert_eq!(refusal(&[&[0x33, 0, 0, 0, 0, 0, 16, 2, b'1', b'0', 3, 0, 0, 0, 0, 0]], 4), 0);
    assert_eq!(refusal(&[&[0x33, 0, 0, 0, 0, 0, 16, 2, b'1', b'0', 4, 0, 0, 0, 0, 0]], 4), 9);
}

#[test]
fn sheet_bytes() {
    assert_eq!(refusal(&[DD], 0), 10);
    assert_eq!(refusal(&[DD], 4096), 0);
    assert_eq!(refusal(&[DD], 4097), 10);
    assert_eq!(refusal(&[&[0x17, 0, 0, 0]], 4097), 10);
    assert_eq!(refusal(&[TEXT], 4097), 0);
    assert_eq!(refusal(&[DD, &dd_at(1)], 2), 0);
    assert_eq!(refusal(&[DD, DD], 2), 11);
}

#[test]
fn limits_on_both_sides() {
    assert_eq!([7, 8, 9, 10].map(|depth| shape_refusal(Shape::Chain(depth))), [0, 0, 8, 8]);
    assert_eq!([99, 100].map(|lines| shape_refusal(Shape::Long(lines))), [0, 8]);
    assert_eq!([1024, 1025].map(|lines| shape_refusal(Shape::ManyLines(lines))), [0, 8]);
    assert_eq!([256, 257].map(|fields| shape_refusal(Shape::ManyFields(fields))), [0, 8]);
    let long = |length: usize| {
        let mut bytes = image(vec![vec![line(&[TEXT])]]);
        bytes.resize(length, 0xEE);
        open(&bytes, &mut [], 16, 4).0
    };
    assert_eq!([32_768, 32_769].map(long), [0, 2]);
}

#[test]
fn marks_and_pointers_of_lines() {
    let good = image(vec![vec![line(&[TEXT]), line(&[TEXT])]]);
    let with = |at: usize, byte: u8| {
        let mut bytes = good.clone();
        bytes[at] = byte;
        open(&bytes, &mut [], 16, 4).0
    };
    assert_eq!(good[12..], [0, 0x01, 6, 0, 0x95, 1, b'x', 0x02, 6, 0, 0x95, 1, b'x'][..]);
    assert_eq!(with(12, 1), 7); // padding
    assert_eq!(with(14, 4), 7); // next-line-ofs into the line itself
    assert_eq!(with(14, 200), 6);
    assert_eq!(with(20, 4), 7); // prev-line-ofs
    assert_eq!(with(19, 0x03), 7); // a second first line
    assert_eq!(with(19, 0x12), 7); // a password without a submenu
    assert_eq!(with(19, 0x22), 7);
    assert_eq!(with(19, 0x1A), 6); // a submenu, and a password whose length is the 'x'
}

#[test]
fn passwords() {
    let refusal = |password: &[u8]| open(&protected(password), &mut [], 16, 4).0;
    assert_eq!(refusal(b""), 9);
    assert_eq!(refusal(b"12345678"), 0);
    assert_eq!(refusal(b"123456789"), 9);
    assert_eq!(refusal(b"1a"), 9);
}

#[test]
fn password_entry() {
    let image = protected(b"12");
    let step = |session: &Session, key: usize| event(&image, &mut [], session, key);
    let (_, session) = open(&image, &mut [], 16, 4);
    let (entry, answer) = step(&session, RIGHT);
    assert_eq!((answer, &entry.mode), (Answer::Taken, &Mode::Password(vec![])));
    let (one, _) = step(&entry, 1);
    let mut picture = [0; 64];
    draw(&image, &[], &one, &mut picture);
    assert_eq!(&picture[..16], b"Pwd:*.          ");
    assert_eq!(step(&one, 2).0.levels.len(), 2);
    assert_eq!(step(&one, 3), (session.clone(), Answer::Flash));
    assert_eq!(step(&one, LEFT), (session, Answer::Taken));
    assert_eq!(step(&one, RIGHT), (one.clone(), Answer::Flash));
    let (still, _) = step(&one, SECOND);
    assert_eq!(step(&still, SECOND).0.mode, Mode::Browsing);
}

#[test]
fn events_sessions_and_option_texts() {
    let option = [&[0x14, 0, 0, 0, 0, 0, 17, 2, 3, 1], b"\x02no\x03yes".as_slice()].concat();
    let image = image(vec![vec![
        line(&[DD, TEXT]),
        line(&[&[0x14 | 0x20, 0, 0, 0, 1, 0, 17, 2, 3, 1, 2, b'n', b'o', 3, b'y', b'e', b's']]),
    ]]);
    assert_eq!(refusal(&[&option], 1), 0);
    let mut sheet = [0, 0];
    let (_, session) = open(&image, &mut sheet, 16, 4);
    assert_eq!(sheet, [5, 1]);
    assert_eq!(event(&image, &mut sheet, &session, 17), (session.clone(), Answer::Refused(13)));
    assert_eq!(event(&image, &mut sheet, &Session::closed(), 17).1, Answer::Refused(12));
    let place = image.iter().position(|&byte| byte == 0xB4).unwrap();
    let (refusal, text) = option_text(&image, &sheet, place, 1);
    assert_eq!((refusal, &image[text]), (0, b"yes".as_slice()));
    assert_eq!(option_text(&image, &sheet, place, 2), (14, 0..0));
    assert_eq!(option_text(&image, &sheet, place + 1, 0), (14, 0..0));
    assert_eq!(option_text(&image, &[], place, 0).0, 10);
}
