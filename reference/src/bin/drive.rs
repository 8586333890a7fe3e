//! The reference's side of bench/run: plays keys on an image, marks the sheet, records the events and plays the record as bench/drive.c
//! does, `drive IMAGE KEYS ROUNDS KEY`, and prints the same.

use reference::calls::{draw, event, open};
use reference::marker::{mark_into, SUMS};
use reference::record::{play, record, HIGHEST_NUMBER};
use std::time::Instant;
use std::{fs, io};

const REFUSED: u32 = 1 << 24;
const COLUMNS: usize = 20;
const LINES: usize = 4;

#[derive(Default)]
struct Clock {
    nanoseconds: u128,
    calls: u128,
}

impl Clock {
    fn time<T>(&mut self, call: impl FnOnce() -> T) -> T {
        let began = Instant::now();
        let answer = call();
        self.nanoseconds += began.elapsed().as_nanos();
        self.calls += 1;
        answer
    }
}

fn refused(refusal: u8) -> u32 {
    if refusal == 0 {
        0
    } else {
        REFUSED + u32::from(refusal)
    }
}

fn main() -> io::Result<()> {
    let words: Vec<String> = std::env::args().collect();
    let image = fs::read(&words[1])?;
    let letters = b"0123456789.udlres";
    let pressed = |key| letters.iter().position(|letter| letter == key);
    let events: Vec<u8> = fs::read(&words[2])?.iter().filter_map(pressed).map(|event| event as u8).collect();
    let rounds: usize = words[3].parse().unwrap_or(1);
    let key: Vec<u16> = fs::read(&words[4])?.as_chunks().0.iter().map(|&bytes| u16::from_le_bytes(bytes)).collect();
    let mut sheet = vec![0; 4096];
    let mut picture = vec![0; COLUMNS * LINES];
    let mut sums = [0; SUMS];
    let mut marked = 0;
    let mut room = vec![0; HIGHEST_NUMBER + 4];
    let mut answers = vec![0; HIGHEST_NUMBER];
    let mut clocks: [Clock; 6] = Default::default();
    let mut sum = 0u32;
    let mut add = |number: u32| sum = sum.wrapping_mul(31).wrapping_add(number);
    for _ in 0..rounds {
        let (refusal, mut session) = clocks[0].time(|| open(&image, &mut sheet, COLUMNS, LINES));
        add(refused(refusal));
        for &pressed in &events {
            let (next, answer) = clocks[1].time(|| event(&image, &mut sheet, &session, usize::from(pressed)));
            session = next;
            add(answer.number());
            let (refusal, cursor) = clocks[2].time(|| draw(&image, &sheet, &session, &mut picture));
            add(cursor.map_or(refused(refusal), |(row, column)| (1 << 16) + 256 * row as u32 + column as u32));
            picture.iter().for_each(|&byte| add(u32::from(byte)));
        }
        marked = refused(clocks[3].time(|| mark_into(&image, &sheet, &key, &mut sums)));
        add(marked);
        sums.iter().for_each(|&number| add(number));
        let (_, length) = clocks[4].time(|| record(&events, &mut room));
        add(length as u32);
        room[..length].iter().for_each(|&byte| add(u32::from(byte)));
        let replay = clocks[5].time(|| play(&image, &mut sheet, COLUMNS, LINES, &room[..length], &mut answers));
        add(replay.events as u32 + refused(replay.refusal));
        answers[..events.len()].iter().for_each(|&number| add(number));
    }
    sheet.iter().for_each(|&byte| add(u32::from(byte)));
    let [o, e, d, m, r, p] = clocks.map(|clock| format!("{} {}", clock.calls, clock.nanoseconds / clock.calls.max(1)));
    println!("open {o} event {e} draw {d} mark {m} record {r} play {p} marked {marked} sum {sum:08x}");
    Ok(())
}
