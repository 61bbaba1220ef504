//! Asks both sides the same and tallies where they part.

use crate::counted::grown;
use crate::foreign::{self, kept, not_erased};
use crate::handed::{self, SEEN, Seen};
use crate::model::*;
use crate::place::{self, PLACED};
use crate::reads::{self, SHOWN as READS};
use crate::{exhaustive, spoiled};
use std::panic::resume_unwind;
use std::thread;

/// Which cases: every `stride`-th of the short inputs, so many random ones of a seed, a tenth as many spoiled ones, and
/// a sixtieth as many about counts, or 600.
#[derive(Clone, Copy)]
pub struct Plan {
    pub seed: u64,
    pub random: u64,
    pub stride: u64,
}

impl Plan {
    pub fn spoiled(&self) -> u64 {
        self.random / 10
    }

    /// A short run too is to have all of `SEEN`.
    pub fn handed(&self) -> u64 {
        (self.random / 60).max(600)
    }
}

/// Differences kept of each kind: those with the shortest inputs.
const SHOWN: usize = 3;

#[derive(Default)]
pub struct Tally {
    pub cases: [u64; KINDS.len()],
    pub differences: [u64; KINDS.len()],
    /// Cases whose units the Rust's constructors do not accept.
    pub outside: u64,
    /// Calls that are refused with 18, without which the Rust is asked.
    pub left_out: u64,
    /// Places in our refusals, by the order of `PLACED`.
    pub places: [u64; PLACED.len()],
    /// What came about among the counts that the Rust does not have.
    pub seen: Seen,
    /// Steps of recoveries by what their reads show, by the order of `READS`.
    pub reads: [u64; READS.len()],
    shown: [Vec<(usize, String)>; KINDS.len()],
}

impl Tally {
    fn add(&mut self, name: &dyn Fn() -> String, case: &Case, ours: Answer, theirs: Answer) {
        if theirs == Answer::NotAccepted {
            self.outside += 1;
            return;
        }
        let kind = case.kind();
        self.cases[kind] += 1;
        self.left_out += not_erased(&ours);
        add(&mut self.places, place::count(case, &ours));
        add_seen(&mut self.seen, handed::seen(case, &ours));
        add(&mut self.reads, reads::shown(case, &ours));
        if agree(case, &ours, &theirs) {
            return;
        }
        self.differences[kind] += 1;
        let input = format!("{case:02x?}");
        let shown = &mut self.shown[kind];
        if shown.len() == SHOWN && shown.iter().all(|(len, _)| *len <= input.len()) {
            return;
        }
        let changed = match (ours == theirs, grown(case, &ours)) {
            (false, _) => "",
            (true, true) => ", a stranger's byte changed",
            (true, false) => ", the counts did not grow by what was programmed",
        };
        let answers = format!("  ours   {ours:02x?}\n  Rust   {theirs:02x?}");
        let text = format!("{}{changed}, all numbers in hex\n  input  {input}\n{answers}", name());
        shown.push((input.len(), text));
        self.keep_shortest();
    }

    fn keep_shortest(&mut self) {
        for shown in &mut self.shown {
            shown.sort();
            shown.truncate(SHOWN);
        }
    }

    fn join(mut self, other: Tally) -> Tally {
        add(&mut self.cases, other.cases);
        add(&mut self.differences, other.differences);
        self.outside += other.outside;
        self.left_out += other.left_out;
        add(&mut self.places, other.places);
        add_seen(&mut self.seen, other.seen);
        add(&mut self.reads, other.reads);
        for (mine, more) in self.shown.iter_mut().zip(other.shown) {
            mine.extend(more);
        }
        self.keep_shortest();
        self
    }

    pub fn total(&self) -> (u64, u64) {
        (self.cases.iter().sum(), self.differences.iter().sum())
    }

    /// Whether all agree, and a place of every refusal that has one was among it, and all of `SEEN` and `READS`.
    pub fn is_good(&self) -> bool {
        let mut counts = self.seen.iter().flatten().chain(&self.places).chain(&self.reads);
        self.total().1 == 0 && counts.all(|count| *count > 0)
    }

    pub fn print(&self) {
        println!("{:<22} {:>12} {:>12}", "calls", "cases", "differences");
        for (kind, name) in KINDS.iter().enumerate() {
            println!("{name:<22} {:>12} {:>12}", self.cases[kind], self.differences[kind]);
        }
        let (cases, differences) = self.total();
        println!("{:<22} {cases:>12} {differences:>12}", "all");
        if self.outside > 0 {
            println!("outside the Rust's domain, not compared: {}", self.outside);
        }
        println!("refused with 18, left out of what the Rust is asked: {}", self.left_out);
        println!("places in refusals, compared with a search of the bytes: {}", self.places.iter().sum::<u64>());
        for ((kind, number), count) in PLACED.iter().zip(self.places) {
            println!("{:<22} {count:>12}{}", format!("  {}, {number}", KINDS[*kind]), none(count));
        }
        self.print_seen();
        self.print_reads();
        for (_, text) in self.shown.iter().flatten() {
            println!("\ndifference: {text}");
        }
    }

    fn print_seen(&self) {
        println!("counts that the Rust does not have, compared with a plain model:");
        let columns = |texts: [String; PLACES]| texts.map(|text| format!("{text:>12}")).concat();
        let names = ["payload", "programmed", "operations", "barriers", "uncommitted"];
        println!("{:<30}{}", "", columns(names.map(str::to_string)));
        for (name, seen) in SEEN.iter().zip(self.seen) {
            let none = if seen.contains(&0) { ": NOT compared" } else { "" };
            println!("  {name:<28}{}{none}", columns(seen.map(|count| count.to_string())));
        }
    }

    fn print_reads(&self) {
        let steps: u64 = self.reads.iter().sum();
        println!("steps whose reads, compared with those that the Rust asks of its flash, show one of these: {steps}");
        for (name, count) in READS.iter().zip(self.reads) {
            println!("  {name:<34}{count:>12}{}", none(count));
        }
    }
}

/// What stands behind a count of cases of its kind.
fn none(count: u64) -> &'static str {
    if count == 0 { ": NOT compared" } else { "" }
}

fn add<const N: usize>(counts: &mut [u64; N], more: [u64; N]) {
    counts.iter_mut().zip(more).for_each(|(count, more)| *count += more);
}

fn add_seen(counts: &mut Seen, more: Seen) {
    counts.iter_mut().zip(more).for_each(|(counts, more)| add(counts, more));
}

/// Whether our answer is the Rust's, what strangers wrote stays in it, and its counts grow by what was programmed.
pub fn agree(case: &Case, ours: &Answer, theirs: &Answer) -> bool {
    ours == theirs && kept(case, ours) && grown(case, ours)
}

/// Hands out every case of a plan that falls to one of several workers, with its name. What is handed out is a clone,
/// whose buffers end where their bytes end, so that a checker of memory sees a read past them.
pub fn each(plan: Plan, worker: u64, workers: u64, take: &mut dyn FnMut(&dyn Fn() -> String, Case)) {
    let mut number = 0_u64;
    let mut short = |case: Case| {
        number += 1;
        if number.is_multiple_of(plan.stride) && number / plan.stride % workers == worker {
            take(&|| format!("short input {number}"), case.clone());
        }
    };
    exhaustive::each(&mut short);
    reads::each(&mut short);
    for number in (worker..plan.random).step_by(workers as usize) {
        take(&|| format!("case {number} of seed {}", plan.seed), foreign::case(plan.seed, number).clone());
    }
    for number in (worker..plan.spoiled()).step_by(workers as usize) {
        take(&|| format!("spoiled case {number} of seed {}", plan.seed), spoiled::case(plan.seed, number).clone());
    }
    for number in (worker..plan.handed()).step_by(workers as usize) {
        take(&|| format!("case {number} about counts of seed {}", plan.seed), handed::case(plan.seed, number).clone());
    }
}

/// The whole plan, on all cores.
pub fn compare(ours: &dyn Side, theirs: &dyn Side, plan: Plan) -> Tally {
    let workers = thread::available_parallelism().map_or(1, |cores| cores.get() as u64);
    let work = |worker| {
        let mut tally = Tally::default();
        each(plan, worker, workers, &mut |name, case| tally.add(name, &case, ours.answer(&case), theirs.answer(&case)));
        tally
    };
    thread::scope(|scope| {
        let workers: Vec<_> = (0..workers).map(|worker| scope.spawn(move || work(worker))).collect();
        // A worker that panicked ends the run: what it would have found is not known.
        let tallies = workers.into_iter().map(|worker| worker.join().unwrap_or_else(|panic| resume_unwind(panic)));
        tallies.fold(Tally::default(), Tally::join)
    })
}
