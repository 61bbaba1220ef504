//! compare: runs the journal and the Rust it was ported from on the same inputs.
//!
//!     compare [--cases N] [--seed S]   every short input, N random ones, N / 10 spoiled ones and N / 60 about counts,
//!                                      600 at least; status 1 if any answer differs
//!     compare --short [--seed S]       some thousands, for slow runs under a checker of memory
//!     compare --faults [--seed S]      deliberate mistakes on both sides; status 1 if one is not caught
//!     compare --fixed FILE             writes the fixed list, from the oracle alone

use compare::fixed;
use compare::run::Plan;
use std::process::ExitCode;
use std::{env, fs};

const USAGE: &str = "usage: compare [--cases N] [--seed S] | --short | --faults | --fixed FILE";

enum Mode {
    Whole,
    Short,
    Faults,
    Fixed(String),
}

struct Options {
    mode: Mode,
    seed: u64,
    cases: u64,
}

fn options() -> Option<Options> {
    let mut options = Options { mode: Mode::Whole, seed: 1, cases: 12_000_000 };
    let mut words = env::args().skip(1);
    while let Some(word) = words.next() {
        match word.as_str() {
            "--cases" => options.cases = words.next()?.parse().ok()?,
            "--seed" => options.seed = words.next()?.parse().ok()?,
            "--short" => options.mode = Mode::Short,
            "--faults" => options.mode = Mode::Faults,
            "--fixed" => options.mode = Mode::Fixed(words.next()?),
            _ => return None,
        }
    }
    Some(options)
}

fn main() -> ExitCode {
    let Some(Options { mode, seed, cases }) = options() else {
        eprintln!("{USAGE}");
        return ExitCode::from(2);
    };
    match mode {
        Mode::Fixed(file) => write_fixed(&file),
        Mode::Whole => both::compare(Plan { seed, random: cases, stride: 1 }),
        Mode::Short => both::compare(Plan { seed, random: 3_000, stride: 499 }),
        Mode::Faults => both::faults(Plan { seed, random: 40_000, stride: 23 }),
    }
}

fn write_fixed(file: &str) -> ExitCode {
    let (list, counts) = fixed::list();
    if let Err(error) = fs::write(file, &list) {
        eprintln!("cannot write {file}: {error}");
        return ExitCode::from(2);
    }
    let ops = ["", "checks", "encode", "decode", "recovery", "scan", "append"];
    for (op, count) in counts.iter().enumerate().skip(1) {
        println!("{:<10} {count:>6}", ops[op]);
    }
    println!("{} cases, {} bytes in {file}", counts.iter().sum::<usize>(), list.len());
    ExitCode::SUCCESS
}

#[cfg(feature = "ours")]
mod both {
    use super::*;
    use compare::counted::Counted;
    use compare::faults::{self, FAULTS, Whose};
    use compare::foreign::Looking;
    use compare::ours::Ours;
    use compare::place::Placed;
    use compare::run;
    use compare::theirs::Theirs;

    /// What the answers of ours are held against.
    const TRUE: Counted = Counted(&Placed(&Looking(&Theirs)));

    const NOT_COMPARED: &str =
        "The Rust has no form for these, so they are not compared: refusals 1, 14, 15 and 18; refusal 2 at
barrier and commit; a barrier or commit after a stage that was refused with 12; N = 0; a read unit above
the program unit or one that does not divide N; the payload of a frame of unknown kind. Stages that are
refused with 18 are left out of what the Rust is asked: ours must refuse those that document 02's d) names
and no others, and change nothing. The place in a refusal is compared with a search of the bytes: the Rust
has none. Nor has it the fifth count, counts from 4,294,967,295 on, openings that are handed counts, and
refusal 24: these are compared with a plain model.";

    pub fn compare(plan: Plan) -> ExitCode {
        let short = match plan.stride {
            1 => "every short input".to_string(),
            stride => format!("one short input in {stride}"),
        };
        let Plan { seed, random, .. } = plan;
        let (spoiled, handed) = (plan.spoiled(), plan.handed());
        println!("{short}, {random} random cases of seed {seed}, {spoiled} spoiled ones and {handed} about counts");
        let tally = run::compare(&Ours, &TRUE, plan);
        tally.print();
        println!("\n{NOT_COMPARED}");
        if tally.is_good() { ExitCode::SUCCESS } else { ExitCode::FAILURE }
    }

    pub fn faults(plan: Plan) -> ExitCode {
        let caught = faults::run(&Ours, &TRUE, plan);
        for (fault, caught) in FAULTS.iter().zip(&caught) {
            let whose = if fault.whose == Whose::Ours { "ours" } else { "Rust" };
            let verdict = caught.as_ref().map_or("NOT CAUGHT".to_string(), |case| format!("caught ({case})"));
            println!("{whose}: {:<52} {verdict}", fault.name);
        }
        let missed = caught.iter().filter(|caught| caught.is_none()).count();
        println!("{} faults, {missed} not caught", FAULTS.len());
        if missed == 0 { ExitCode::SUCCESS } else { ExitCode::FAILURE }
    }
}

#[cfg(not(feature = "ours"))]
mod both {
    use super::*;

    pub fn compare(_: Plan) -> ExitCode {
        eprintln!("built without our side: only --fixed can be had");
        ExitCode::from(2)
    }

    pub fn faults(plan: Plan) -> ExitCode {
        compare(plan)
    }
}
