//! The marker (02 No. 1): what is right, wrong and blank, each kind of one byte, and each cause of refusal 15.

use reference::generator::lay::{lay, ComponentPlan, LinePlan, MenuPlan, TablePlan};
use reference::marker::{mark, mark_into, Sums};

const EDIT: u8 = 0x20;
const TEXT: &[u8] = b"\x15\x01x";
const TRIGGER: &[u8] = &[0x37, 0, 0, 0];

/// A component with a var-addr; `settings` stand behind it.
fn field(tag: u8, var_addr: u16, settings: &[u8]) -> Vec<u8> {
    [&[tag, 0, 0, 0], &var_addr.to_le_bytes()[..], settings].concat()
}

/// An option of three items without text.
fn option(var_addr: u16, default: u8) -> Vec<u8> {
    field(0x14 | EDIT, var_addr, &[13, 3, 0, default, 0, 0, 0])
}

fn line(components: &[Vec<u8>]) -> LinePlan {
    let plan = |bytes: &Vec<u8>| ComponentPlan { bytes: bytes.clone(), sheet_size: 0 };
    LinePlan { components: components.iter().map(plan).collect(), ..LinePlan::default() }
}

fn image(tables: Vec<Vec<LinePlan>>) -> Vec<u8> {
    let tables = tables.into_iter().map(|lines| TablePlan { title: b"T".to_vec(), lines, gap: vec![] }).collect();
    lay(&MenuPlan { delays: [0, 0, 0], tables }).image
}

fn one_line(components: &[Vec<u8>]) -> Vec<u8> {
    image(vec![vec![line(components)]])
}

/// ddd at 0 with default 7, DDDDD at 1, hh at 3, an option at 4, all with default 0; nothing at 5.
fn paper() -> Vec<u8> {
    let components = [
        field(0x01 | EDIT, 0, &[7]),
        field(0x07 | EDIT, 1, &[0, 0]),
        TRIGGER.to_vec(),
        field(0x02 | EDIT, 3, &[0]),
        option(4, 0),
    ];
    one_line(&components)
}

const SHEET: [u8; 6] = [200, 0, 0, 0, 2, 9];

fn sums(right: u32, wrong: u32, blank: u32) -> Result<Sums, u8> {
    Ok(Sums { right, wrong, blank })
}

/// What one question of one point about the only field says.
fn verdict(component: Vec<u8>, byte: u8, right: u16) -> Result<Sums, u8> {
    mark(&one_line(&[component]), &[byte], &[0, right, 1])
}

const RIGHT: Result<Sums, u8> = Ok(Sums { right: 1, wrong: 0, blank: 0 });
const WRONG: Result<Sums, u8> = Ok(Sums { right: 0, wrong: 1, blank: 0 });
const BLANK: Result<Sums, u8> = Ok(Sums { right: 0, wrong: 0, blank: 1 });

#[test]
fn right_wrong_and_blank_in_any_order() {
    assert_eq!(mark(&paper(), &SHEET, &[0, 200, 5, 3, 0xAA, 20, 4, 1, 100]), sums(5, 100, 20));
    assert_eq!(mark(&paper(), &SHEET, &[4, 1, 100, 0, 200, 5, 3, 0xAA, 20]), sums(5, 100, 20));
    assert_eq!(mark(&paper(), &SHEET, &[4, 2, 255, 0, 200, 0]), sums(255, 0, 0));
}

#[test]
fn no_questions() {
    assert_eq!(mark(&paper(), &SHEET, &[]), sums(0, 0, 0));
    assert_eq!(mark(&one_line(&[TEXT.to_vec()]), &[], &[]), sums(0, 0, 0));
    assert_eq!(mark(&paper()[..9], &SHEET, &[]), Err(2));
}

#[test]
fn each_kind_of_one_byte() {
    for code in 0x00..=0x04 {
        for tag in [code, code | EDIT] {
            assert_eq!(verdict(field(tag, 0, &[5]), 5, 6), BLANK);
            assert_eq!(verdict(field(tag, 0, &[5]), 6, 6), RIGHT);
            assert_eq!(verdict(field(tag, 0, &[5]), 7, 6), WRONG);
        }
    }
    assert_eq!([1, 2, 0].map(|byte| verdict(option(0, 1), byte, 2)), [BLANK, RIGHT, WRONG]);
    let read_only = field(0x14, 0, &[13, 3, 0, 1, 0, 0, 0]);
    assert_eq!([1, 2, 0].map(|byte| verdict(read_only.clone(), byte, 2)), [BLANK, RIGHT, WRONG]);
}

#[test]
fn signed_formats_compare_bytes() {
    let minus_five = || field(0x03 | EDIT, 0, &[0xFB]);
    assert_eq!([0xFB, 0xFC, 0x05].map(|byte| verdict(minus_five(), byte, 0xFC)), [BLANK, RIGHT, WRONG]);
    assert_eq!(verdict(minus_five(), 0, 0xFB), Err(15));
    assert_eq!(verdict(minus_five(), 0, 0xFFFB), Err(15));
}

#[test]
fn bytes_out_of_range_count_like_others() {
    let dd = || field(EDIT, 0, &[5]);
    assert_eq!(verdict(dd(), 100, 7), WRONG);
    assert_eq!(verdict(dd(), 100, 100), RIGHT);
    assert_eq!(verdict(dd(), 5, 100), BLANK);
    assert_eq!([3, 255, 0].map(|byte| verdict(option(0, 0), byte, 255)), [WRONG, RIGHT, BLANK]);
}

#[test]
fn key_of_another_length() {
    let key = [0, 200, 5, 3, 0xAA, 20, 4, 1, 100, 5];
    for length in [1, 2, 4, 5, 7, 8, 10] {
        assert_eq!(mark(&paper(), &SHEET, &key[..length]), Err(15), "{length}");
    }
    assert_eq!(mark(&paper(), &SHEET, &key[..6]), sums(5, 0, 20));
}

#[test]
fn place_of_no_one_byte_field() {
    // the wide integer's bytes, no field's byte, the sheet's end and beyond, and low bytes that would be right
    for place in [1, 2, 5, 6, 256, 260, 4096, 4100, 65535] {
        assert_eq!(mark(&paper(), &SHEET, &[place, 9, 1]), Err(15), "{place}");
    }
    let trigger_alone = one_line(&[TRIGGER.to_vec()]);
    assert_eq!(mark(&trigger_alone, &[0; 20], &[0, 9, 1]), Err(15));
    assert_eq!(mark(&trigger_alone, &[0; 20], &[14, 9, 1]), Err(15));
}

#[test]
fn every_byte_of_a_wider_field() {
    let wider = [
        (2, field(0x05 | EDIT, 0, &[0, 0])),
        (2, field(0x06 | EDIT, 0, &[0, 0])),
        (2, field(0x08 | EDIT, 0, &[0, 0])),
        (2, field(0x09 | EDIT, 0, &[0, 0])),
        (2, field(0x0A | EDIT, 0, &[0, 0])),
        (2, field(0x0D | EDIT, 0, &[0, 0, 9, 0, 1, 0, 0, 0, 1])),
        (3, field(0x0F | EDIT, 0, &[0, 0, 0])),
        (2, field(0x10 | EDIT, 0, &[0, 0])),
        (4, field(0x11 | EDIT, 0, &[1, 1, 0, 0])),
        (3, field(0x12 | EDIT, 0, &[1, 1, 0])),
        (4, field(0x13 | EDIT, 0, &[15, 1, b'1', b'0', 0, 0, 0, 0, 0])),
    ];
    for (size, component) in wider {
        let image = one_line(std::slice::from_ref(&component));
        assert_eq!(mark(&image, &vec![0; size], &[]), sums(0, 0, 0), "{component:?}");
        for place in 0..size as u16 {
            assert_eq!(mark(&image, &vec![0; size], &[place, 9, 1]), Err(15), "{component:?} at {place}");
        }
    }
}

#[test]
fn place_that_comes_twice() {
    assert_eq!(mark(&paper(), &SHEET, &[0, 200, 5, 0, 200, 5]), Err(15));
    assert_eq!(mark(&paper(), &SHEET, &[0, 200, 5, 3, 1, 1, 0, 201, 6]), Err(15));
}

#[test]
fn right_byte_over_255_or_the_default() {
    for (right, expected) in [(6, WRONG), (7, Err(15)), (8, WRONG), (255, WRONG), (256, Err(15)), (263, Err(15)), (456, Err(15))]
    {
        assert_eq!(mark(&paper(), &SHEET, &[0, right, 1]), expected, "{right}");
    }
    assert_eq!(mark(&paper(), &SHEET, &[0, 65535, 1]), Err(15));
}

#[test]
fn points_over_255() {
    assert_eq!(mark(&paper(), &SHEET, &[0, 200, 0]), sums(0, 0, 0));
    assert_eq!(mark(&paper(), &SHEET, &[0, 200, 255]), sums(255, 0, 0));
    assert_eq!(mark(&paper(), &SHEET, &[0, 200, 256]), Err(15));
    assert_eq!(mark(&paper(), &SHEET, &[0, 200, 65535]), Err(15));
}

#[test]
fn fault_in_the_last_question() {
    for last in [[5, 1, 1], [0, 1, 1], [4, 0, 1], [4, 256, 1], [4, 1, 256]] {
        assert_eq!(mark(&paper(), &SHEET, &[&[0, 200, 5, 3, 1, 1], &last[..]].concat()), Err(15), "{last:?}");
    }
}

#[test]
fn image_and_sheet_come_first() {
    let bad_key = [1];
    let with = |at: usize, byte: u8| {
        let mut bytes = paper();
        bytes[at] = byte;
        bytes
    };
    assert_eq!(mark(&[], &SHEET, &bad_key), Err(2));
    assert_eq!(mark(&with(0, 0), &SHEET, &bad_key), Err(3));
    assert_eq!(mark(&with(4, 5), &SHEET, &bad_key), Err(4));
    assert_eq!(mark(&with(9, 0), &SHEET, &bad_key), Err(5));
    assert_eq!(mark(&paper()[..20], &SHEET, &bad_key), Err(6));
    assert_eq!(mark(&with(12, 1), &SHEET, &bad_key), Err(7)); // padding before the line
    let fields: Vec<_> = (0..257).map(|at| field(0x01, at, &[0])).collect();
    assert_eq!(mark(&one_line(&fields), &[0; 257], &bad_key), Err(8));
    assert_eq!(mark(&one_line(&[field(0x00, 0, &[100])]), &SHEET, &bad_key), Err(9));
    assert_eq!(mark(&paper(), &SHEET[..4], &bad_key), Err(10));
    assert_eq!(mark(&paper(), &[0; 4097], &bad_key), Err(10));
    assert_eq!(mark(&one_line(&[option(0, 0), option(0, 0)]), &SHEET, &bad_key), Err(11));
    assert_eq!(mark(&paper(), &SHEET, &bad_key), Err(15));
}

#[test]
fn field_behind_a_password() {
    let mut leading = line(&[TEXT.to_vec()]);
    leading.submenu = Some(1);
    leading.password = Some(b"12".to_vec());
    let image = image(vec![vec![leading], vec![line(&[field(0x01 | EDIT, 3, &[0])])]]);
    assert_eq!(mark(&image, &[9, 9, 9, 8], &[3, 8, 40]), sums(40, 0, 0));
}

#[test]
fn all_fields_with_all_points() {
    let fields: Vec<_> = (0..256).map(|at| field(0x01 | EDIT, at, &[at as u8])).collect();
    let key: Vec<u16> = (0..256).rev().flat_map(|at| [at, at ^ 1, 255]).collect();
    let sheet = |turn: u8| (0..=255u8).map(|at| at ^ turn).collect::<Vec<u8>>();
    assert_eq!(mark(&one_line(&fields), &sheet(0), &key), sums(0, 0, 65_280));
    assert_eq!(mark(&one_line(&fields), &sheet(1), &key), sums(65_280, 0, 0));
    assert_eq!(mark(&one_line(&fields), &sheet(2), &key), sums(0, 65_280, 0));
}

#[test]
fn lent_sums() {
    let key = [0, 200, 5, 3, 0xAA, 20, 4, 1, 100];
    let mut three = [9; 3];
    assert_eq!((mark_into(&paper(), &SHEET, &key[..8], &mut three), three), (15, [9; 3]));
    assert_eq!((mark_into(&paper(), &SHEET, &key, &mut three), three), (0, [5, 100, 20]));
    for count in [0, 1, 2, 4, 5] {
        let mut other = vec![9; count];
        assert_eq!(mark_into(&paper(), &SHEET, &key, &mut other), 25);
        assert_eq!(mark_into(&paper(), &SHEET, &key[..8], &mut other), 15);
        assert_eq!(mark_into(&paper(), &SHEET[..4], &key, &mut other), 10);
        assert_eq!(other, vec![9; count]);
    }
}
