//! What the cases that are kept are about: good images and every refusal, most of them short.

use super::flaws::{damaged, flawed, flawed_and_damaged, good, junk, Material};
use crate::random::Random;

/// All cases but one in twenty keep to images and sheets of so many bytes together.
const COMPACT: usize = 700;
const TRIES: usize = 20;

/// The refusals that an image or a sheet can be made for.
const FLAWS: std::ops::RangeInclusive<u8> = 2..=11;

/// What case `number` is about: half of them good images, the others by turns.
fn material(random: &mut Random, number: u64) -> (String, Material) {
    let turn = number / 2 % 13;
    match (number % 2, turn) {
        (0, _) => ("good".to_string(), good(random)),
        (_, 10) => ("damaged".to_string(), damaged(random)),
        (_, 11) => ("junk".to_string(), junk(random)),
        (_, 12) => {
            let refusal = random.within(6, 11) as u8;
            (format!("twice-{refusal}"), flawed_and_damaged(random, refusal))
        }
        _ => {
            let refusal = FLAWS.start() + turn as u8;
            (format!("refusal-{refusal}"), flawed(random, refusal))
        }
    }
}

/// The same, compact where that can be had.
pub fn compact_material(random: &mut Random, number: u64) -> (String, Material) {
    let mut chosen = material(random, number);
    for _ in 0..TRIES {
        if number % 20 >= 18 || chosen.1.image.len() + chosen.1.sheet.len() <= COMPACT {
            break;
        }
        chosen = material(random, number);
    }
    chosen
}
