//! Prints cases in the vectors' format with the reference's answers: `generate COUNT SEED`. The same for the same seed.

use reference::generator::cases::compact_material;
use reference::generator::sitting::{Plan, Sitting};
use reference::random::Random;
use reference::statistics::Statistics;
use reference::vectors::{to_hex, write_line, Executor, Reference, Step};
use std::io::{self, BufWriter, Write};
use std::process::ExitCode;

const PLAN: Plan = Plan {
    forging: false,
    least_actions: 10,
    most_actions: 30,
    other_images: 12,
    wide: false,
    marking: true,
    recording: true,
    dates: true,
};

/// Prints one case, with the sheet wherever a call changed it.
fn print_case(out: &mut impl Write, seed: u64, number: u64, statistics: &mut Statistics) -> io::Result<()> {
    let mut random = Random::of_sitting(seed, number);
    let (name, material) = compact_material(&mut random, number);
    let mut sitting = Sitting::on(random, PLAN, material);
    let mut reference = Reference::new();
    statistics.sittings += 1;
    writeln!(out, "case {name}-{number}")?;
    while let Some(step) = sitting.next(&reference) {
        let session = reference.session.clone();
        let sheet = reference.sheet.clone();
        let outcome = reference.play(&step);
        statistics.count(&step, &session, &reference, &outcome);
        writeln!(out, "{}", write_line(&step, &outcome, reference.image()))?;
        if !matches!(step, Step::Sheet(_)) && reference.sheet != sheet {
            writeln!(out, "sheetis {}", to_hex(&reference.sheet))?;
        }
    }
    statistics.replayed += sitting.replayed();
    Ok(())
}

fn main() -> io::Result<ExitCode> {
    let numbers: Vec<u64> = std::env::args().skip(1).filter_map(|word| word.parse().ok()).collect();
    let [count, seed] = numbers[..] else {
        eprintln!("generate COUNT SEED");
        return Ok(ExitCode::FAILURE);
    };
    let mut out = BufWriter::new(io::stdout().lock());
    let mut statistics = Statistics::default();
    for number in 0..count {
        print_case(&mut out, seed, number, &mut statistics)?;
    }
    eprint!("{statistics}");
    for refusal in (1..=17).chain([25]).filter(|&refusal| statistics.refused(refusal) == 0) {
        eprintln!("refusal {refusal} is not among them");
    }
    Ok(ExitCode::SUCCESS)
}
