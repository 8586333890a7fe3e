//! Compares the reference with the executor's C library, sitting by sitting: `fuzz LIB COUNT SEED [FIRST]`.
//! `fuzz --dry COUNT SEED [FIRST]` plays the reference alone and prints what the sittings reach.
//! With the library: HANDSET_LIB=LIB cargo run --release --features library --bin fuzz -- LIB COUNT SEED

use reference::generator::sitting::{Plan, Sitting};
use reference::statistics::Statistics;
use reference::vectors::{Executor, Reference};
use std::process::ExitCode;

/// After so many sittings a line of progress is printed.
const PROGRESS: u64 = 20_000;

/// The sittings of a run; sessions are forged where they can be compared.
const fn plan(forging: bool) -> Plan {
    Plan { forging, least_actions: 0, most_actions: 40, other_images: 5, wide: true, marking: true, recording: true, dates: true }
}

/// The arguments behind LIB or --dry.
struct Run {
    count: u64,
    seed: u64,
    first: u64,
}

impl Run {
    fn sittings(&self) -> std::ops::Range<u64> {
        self.first..self.first + self.count
    }

    fn progress(&self, number: u64) {
        let done = number - self.first + 1;
        if done.is_multiple_of(PROGRESS) {
            eprintln!("{done} of {} sittings, seed {}", self.count, self.seed);
        }
    }
}

fn main() -> ExitCode {
    let arguments: Vec<String> = std::env::args().skip(1).collect();
    let number = |at: usize| arguments.get(at).and_then(|word| word.parse::<u64>().ok());
    let (Some(library), Some(count), Some(seed)) = (arguments.first(), number(1), number(2)) else {
        eprintln!("fuzz LIB COUNT SEED [FIRST] | fuzz --dry COUNT SEED [FIRST]");
        return ExitCode::FAILURE;
    };
    let run = Run { count, seed, first: number(3).unwrap_or(0) };
    if library == "--dry" {
        dry(&run);
        return ExitCode::SUCCESS;
    }
    compare(library, &run)
}

/// Plays the reference alone.
fn dry(run: &Run) {
    let mut statistics = Statistics::default();
    for number in run.sittings() {
        let mut sitting = Sitting::new(run.seed, number, plan(true));
        let mut reference = Reference::new();
        statistics.sittings += 1;
        while let Some(step) = sitting.next(&reference) {
            let before = reference.session.clone();
            let outcome = reference.play(&step);
            statistics.count(&step, &before, &reference, &outcome);
        }
        statistics.replayed += sitting.replayed();
        run.progress(number);
    }
    print!("{statistics}");
}

#[cfg(not(feature = "library"))]
fn compare(_library: &str, _run: &Run) -> ExitCode {
    eprintln!("built without the library: HANDSET_LIB=LIB cargo run --release --features library --bin fuzz -- LIB COUNT SEED");
    ExitCode::FAILURE
}

#[cfg(feature = "library")]
fn compare(library: &str, run: &Run) -> ExitCode {
    use reference::library::LINKED;
    let named = std::fs::canonicalize(library).map(|path| path.display().to_string());
    if named.ok().as_deref() != Some(LINKED) {
        eprintln!("this program is linked with {LINKED}: build it again with HANDSET_LIB={library}");
        return ExitCode::FAILURE;
    }
    let running = against::Running::begin(run.seed);
    let mut different = 0;
    for number in run.sittings() {
        running.note(number);
        if let Some(case) = against::difference(run.seed, number) {
            different += 1;
            against::report(&case, run.seed, number);
            if different == against::MOST_DIFFERENCES {
                break;
            }
        }
        run.progress(number);
    }
    running.end();
    println!("{} sittings, seed {}, {different} differ", run.count, run.seed);
    if different == 0 {
        ExitCode::SUCCESS
    } else {
        ExitCode::FAILURE
    }
}

/// The comparison of one sitting with the library.
#[cfg(feature = "library")]
mod against {
    use super::{plan, Executor, Reference, Sitting};
    use reference::layout;
    use reference::library::Library;
    use reference::vectors::{outcome_words, to_hex, write_line, Outcome, Step};
    use std::fs::File;
    use std::os::unix::fs::FileExt;

    pub const MOST_DIFFERENCES: usize = 10;

    /// A file that names the sitting being played, should the library end the program.
    pub struct Running {
        path: String,
        file: File,
    }

    impl Running {
        pub fn begin(seed: u64) -> Running {
            let path = format!("fuzz-{seed}-running.txt");
            let file = File::create(&path).expect("the file can be written");
            Running { path, file }
        }

        pub fn note(&self, number: u64) {
            let line = format!("sitting {number:12}\n");
            self.file.write_all_at(line.as_bytes(), 0).expect("the file can be written");
        }

        pub fn end(self) {
            std::fs::remove_file(self.path).expect("the file can be removed");
        }
    }

    /// The lines of a sitting up to its first difference, and what the library did there.
    pub struct Case {
        lines: Vec<String>,
        library: String,
    }

    /// Plays sitting `number` on both.
    pub fn difference(seed: u64, number: u64) -> Option<Case> {
        let mut sitting = Sitting::new(seed, number, plan(layout::IS_DOCUMENTED));
        let mut reference = Reference::new();
        let mut library = Library::new();
        let mut lines = Vec::new();
        while let Some(step) = sitting.next(&reference) {
            let expected = reference.play(&step);
            let got = library.play(&step);
            lines.push(write_line(&step, &expected, reference.image()));
            if let Some(words) = disagreement(&step, &expected, &got, &reference, &library) {
                lines.push(format!("sheetis {}", to_hex(reference.sheet())));
                return Some(Case { lines, library: words });
            }
        }
        None
    }

    /// What the library did otherwise than the reference, if anything.
    fn disagreement(step: &Step, expected: &Outcome, got: &Outcome, reference: &Reference, library: &Library) -> Option<String> {
        if expected != got {
            let shown = match got {
                Outcome::Text(0, text) if text.end > reference.image.len() => format!("{got:?}"),
                Outcome::Drawn(refusal, ..) | Outcome::Marked(refusal, _) if *refusal > 0 => format!("{got:?}"),
                _ => outcome_words(got, reference.image()),
            };
            return Some(format!("{step:?} -> {shown}"));
        }
        if reference.sheet() != library.sheet() {
            return Some(format!("sheet {}", to_hex(library.sheet())));
        }
        if let Some(fault) = library.fault {
            return Some(fault.to_string());
        }
        let same = !layout::IS_DOCUMENTED || layout::session_from_bytes(&layout::LAYOUT, &library.session) == reference.session;
        (!same).then(|| format!("session {}", to_hex(&library.session)))
    }

    /// Prints a difference and writes its case in the vectors' format.
    pub fn report(case: &Case, seed: u64, number: u64) {
        let path = format!("fuzz-{seed}-{number}.txt");
        let text = format!("case fuzz-{seed}-{number}\n{}\n", case.lines.join("\n"));
        std::fs::write(&path, text).expect("the case can be written");
        let last = &case.lines[case.lines.len() - 2];
        println!("seed {seed} sitting {number}, case in {path}:");
        println!("   reference {}", last.chars().take(300).collect::<String>());
        println!("   library   {}", case.library.chars().take(300).collect::<String>());
    }
}
