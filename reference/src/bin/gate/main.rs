//! Writes the cases of the gate's program `vectors` with the reference's answers: `gate COUNT SEED FOLDER` writes FOLDER/stdin and
//! FOLDER/stdout, in the form that tests/cases.py describes: lists of events played from Open on (op 5), option texts (op 2),
//! markings of some of the sheets (op 7); behind them `records` and `dates`.

mod dates;
mod records;

use dates::DATES;
use records::{RECORDINGS, REPLAYS};
use reference::calls::{draw, event, open, option_text};
use reference::fields::Kind;
use reference::generator::cases::compact_material;
use reference::generator::flaws::Material;
use reference::generator::marking::{answered, any_key};
use reference::generator::sitting::{Plan, Sitting};
use reference::random::Random;
use reference::session::{Answer, COLUMNS, LINES};
use reference::vectors::{to_hex, Executor, Reference, Step};
use reference::walk::check;
use reference::{mark, Session};
use std::ops::RangeInclusive;
use std::{fs, io};

const PLAN: Plan = Plan {
    forging: false,
    least_actions: 10,
    most_actions: 40,
    other_images: 0,
    wide: false,
    marking: false,
    recording: false,
    dates: false,
};
const TEXT: u8 = 2;
const PLAY: u8 = 5;
const MARK: u8 = 7;

/// What the runner fills sheets and pictures with.
const FILL: u8 = 0xEE;

/// Sheets of the runner are no longer than this, and its pictures.
const LONGEST_SHEET: usize = 16_384;
const LARGEST_PICTURE: usize = 256;

#[derive(Clone, Copy)]
struct Shape {
    columns: usize,
    lines: usize,
}

impl Shape {
    /// Any shape that Open takes.
    fn legal(random: &mut Random) -> Shape {
        let mut within = |legal: RangeInclusive<usize>| random.within(*legal.start() as i64, *legal.end() as i64) as usize;
        Shape { columns: within(COLUMNS), lines: within(LINES) }
    }
}

/// The shape and the events of a sitting on this image and sheet, up to a step that is neither an event nor only looks.
fn planned(random: Random, image: &[u8], sheet: &[u8]) -> (Shape, Vec<u8>) {
    let material = Material { image: image.to_vec(), sheet: sheet.to_vec() };
    let mut sitting = Sitting::on(random, PLAN, material);
    let mut reference = Reference::new();
    let mut shape = Shape { columns: 20, lines: 4 };
    let mut events = Vec::new();
    let mut is_open = false;
    while let Some(step) = sitting.next(&reference) {
        match step {
            Step::Open { columns, lines } if !is_open => {
                is_open = true;
                shape = Shape { columns, lines };
            }
            Step::Event(number) if is_open && number <= 255 => events.push(number as u8),
            Step::Image(_) | Step::Sheet(_) if !is_open => {}
            Step::Draw(_) | Step::Text { .. } => {}
            Step::Event(_) => {}
            _ => break,
        }
        reference.play(&step);
    }
    (shape, events)
}

fn token(answer: &Answer) -> String {
    match answer {
        Answer::Taken => "t".to_string(),
        Answer::Flash => "f".to_string(),
        Answer::Finished(place) => format!("d{place}"),
        Answer::Fired(place) => format!("!{place}"),
        Answer::Refused(refusal) => format!("r{refusal}"),
    }
}

fn hex(bytes: &[u8]) -> String {
    if bytes.is_empty() {
        String::new()
    } else {
        to_hex(bytes)
    }
}

/// What the runner prints for a sitting that begins with this sheet.
fn played(image: &[u8], sheet: &mut [u8], shape: &Shape, events: &[u8]) -> String {
    let (refusal, mut session) = open(image, sheet, shape.columns, shape.lines);
    let mut words = vec![refusal.to_string()];
    for &number in events {
        let (next, answer) = event(image, sheet, &session, usize::from(number));
        session = next;
        words.push(token(&answer));
    }
    words.push(hex(sheet));
    words.push(drawn(image, sheet, &session, shape));
    words.join(" ")
}

/// What the runner prints for a picture of this shape.
fn drawn(image: &[u8], sheet: &[u8], session: &Session, shape: &Shape) -> String {
    let mut picture = vec![FILL; shape.columns * shape.lines];
    let (refusal, cursor) = draw(image, sheet, session, &mut picture);
    let cursor = cursor.map_or("-".to_string(), |(row, column)| format!("{row},{column}"));
    format!("{refusal} {cursor} {}", hex(&picture))
}

/// What the runner prints for a marking.
fn marked(image: &[u8], sheet: &[u8], key: &[u16]) -> String {
    match mark(image, sheet, key) {
        Ok(sums) => format!("0 {} {} {}", sums.right, sums.wrong, sums.blank),
        Err(refusal) => refusal.to_string(),
    }
}

/// Two-byte numbers, low byte first.
fn low_first(numbers: &[u16]) -> Vec<u8> {
    numbers.iter().flat_map(|number| number.to_le_bytes()).collect()
}

/// What is written: cases as the runner reads them, and what it prints.
#[derive(Default)]
struct Cases {
    stdin: Vec<u8>,
    stdout: String,
}

impl Cases {
    /// `numbers` are sheet length, place and item; `tail` is what follows the image.
    fn add(&mut self, op: u8, name: &str, image: &[u8], numbers: [usize; 3], tail: &[u8], answer: &str) {
        self.stdin.extend([op, name.len() as u8]);
        self.stdin.extend(name.as_bytes());
        self.stdin.extend(low_first(&[image.len(), numbers[0], numbers[1], numbers[2]].map(|number| number as u16)));
        self.stdin.extend(image);
        self.stdin.extend(tail);
        self.stdout += &format!("{name}: {answer}\n");
    }

    /// A sitting; `sheet` is left as it leaves it.
    fn add_play(&mut self, name: &str, image: &[u8], sheet: &mut [u8], shape: &Shape, events: &[u8]) {
        let answer = played(image, sheet, shape, events);
        let tail = [&low_first(&[events.len() as u16]), events].concat();
        self.add(PLAY, name, image, [sheet.len(), shape.columns, shape.lines], &tail, &answer);
    }

    fn add_texts(&mut self, random: &mut Random, name: &str, image: &[u8], sheet_length: usize) {
        for (place, item) in asked(random, image, sheet_length) {
            let (refusal, part) = option_text(image, &vec![FILL; sheet_length], place, item);
            self.add(TEXT, name, image, [sheet_length, place, item], &[], &format!("{refusal} {}", hex(&image[part])));
        }
    }

    /// A marking of the sheet that a sitting left, mostly with other answers in it.
    fn add_mark(&mut self, mut random: Random, name: &str, image: &[u8], left: &[u8]) {
        let sheet = if random.chance(30) { left.to_vec() } else { answered(&mut random, left) };
        let key = any_key(&mut random, image, &sheet);
        let tail = [&sheet, &low_first(&[key.len() as u16])[..], &low_first(&key)].concat();
        self.add(MARK, name, image, [sheet.len(), 0, 0], &tail, &marked(image, &sheet, &key));
    }
}

/// Places and items to ask for: options, another field, and any place.
fn asked(random: &mut Random, image: &[u8], sheet_length: usize) -> Vec<(usize, usize)> {
    let menu = check(image, sheet_length).ok();
    let mut fields = menu.as_ref().map_or(Vec::new(), |menu| menu.fields());
    random.shuffle(&mut fields);
    fields.sort_by_key(|(_, field)| !matches!(field.kind, Kind::Option { .. }));
    let mut places: Vec<usize> = fields.iter().take(2).chain(fields.last()).map(|(place, _)| *place).collect();
    places.push(random.below(image.len() + 2));
    places.into_iter().map(|place| (place, random.below(3))).collect()
}

/// Some of the good images, which have even numbers, and one of each flaw.
fn is_marked(number: u64) -> bool {
    number.is_multiple_of(8) || number % 2 == 1 && (28..54).contains(&number)
}

fn main() -> io::Result<()> {
    let words: Vec<String> = std::env::args().skip(1).collect();
    let [count, seed, folder] = &words[..] else {
        eprintln!("gate COUNT SEED FOLDER");
        return Ok(());
    };
    let (Ok(count), Ok(seed)) = (count.parse::<u64>(), seed.parse::<u64>()) else {
        eprintln!("gate COUNT SEED FOLDER");
        return Ok(());
    };
    let mut cases = Cases::default();
    for number in 0..count {
        let mut random = Random::of_sitting(seed, number);
        let (about, material) = compact_material(&mut random, number);
        let length = material.sheet.len().min(LONGEST_SHEET);
        let image = &material.image;
        if image.len() > usize::from(u16::MAX) {
            continue;
        }
        let mut sheet = vec![FILL; length];
        let (shape, events) = planned(Random::of_sitting(seed, number + count), image, &sheet);
        if shape.columns > 255 || shape.lines > 255 || shape.columns * shape.lines > LARGEST_PICTURE {
            continue;
        }
        let name = format!("{about}-{number}");
        cases.add_play(&name, image, &mut sheet, &shape, &events);
        cases.add_texts(&mut random, &name, image, length);
        if is_marked(number) {
            cases.add_mark(Random::of_sitting(seed, number + 2 * count), &name, image, &sheet);
        }
    }
    for number in 0..RECORDINGS {
        cases.add_record(Random::of_sitting(seed, number + 3 * count), number);
    }
    for number in 0..REPLAYS {
        cases.add_replay(Random::of_sitting(seed, number + 3 * count + RECORDINGS), number);
    }
    for number in 0..DATES {
        cases.add_date(Random::of_sitting(seed, number + 3 * count + RECORDINGS + REPLAYS), number);
    }
    fs::write(format!("{folder}/stdin"), cases.stdin)?;
    fs::write(format!("{folder}/stdout"), cases.stdout)
}
