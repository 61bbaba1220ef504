//! Random cases about counts: lists whose openings are handed some, openings with settings outside their limits, and
//! sums of any two. They have random numbers of their own and come last, so that the other cases stay as they are.

use crate::counted::{MOST, STOP, TOO_LARGE, handed, may_go_on};
use crate::generate;
use crate::model::*;
use crate::rng::Rng;
use std::array;

/// Parts their random numbers from those of the other cases.
const NUMBERS: u64 = 0x0C07_2147;
/// Where a count or its limit turns.
pub const EDGES: [u64; 12] =
    [0, 1, STOP - 1, STOP, STOP + 1, MOST - 1, MOST, MOST + 1, 1 << 63, u64::MAX - 2, u64::MAX - 1, u64::MAX];

/// One case, from one seed and its own number.
pub fn case(seed: u64, number: u64) -> Case {
    let mut rng = Rng::for_case(seed ^ NUMBERS, number);
    match rng.below(8) {
        0 | 1 => sum(&mut rng),
        2 => settings(&mut rng),
        _ => list(&mut rng, number as usize % PLACES),
    }
}

fn any(rng: &mut Rng) -> u64 {
    if rng.one_in(2) { rng.pick(&EDGES) } else { rng.number() >> rng.below(64) }
}

/// A count that an opening goes on from; often one that the steps of a list carry past the Rust's stop.
fn allowed(rng: &mut Rng) -> u64 {
    match rng.below(6) {
        0 | 1 => STOP - rng.below(4) as u64,
        2 => STOP + 2 - rng.below(300) as u64,
        3 => MOST - rng.below(3) as u64,
        4 => any(rng).min(MOST),
        _ => rng.below(3) as u64,
    }
}

fn too_large(rng: &mut Rng) -> u64 {
    if rng.one_in(2) { MOST + 1 } else { any(rng).max(MOST + 1) }
}

/// Counts that an opening goes on from but for the one in this place.
fn with(rng: &mut Rng, place: usize, count: u64) -> Call {
    let mut counts: [u64; PLACES] = array::from_fn(|_| allowed(rng));
    counts[place] = count;
    Call::OpenWith(Written::of(counts))
}

/// A list whose first opening is handed counts, and most of the others; before some, and at the end, one is refused for
/// a count that is too large.
fn list(rng: &mut Rng, place: usize) -> Case {
    let mut case = generate::append_case(rng);
    let Case::Append { calls, .. } = &mut case else { return case };
    let mut with_counts = Vec::new();
    for call in calls.drain(..) {
        if !matches!(call, Call::Open) {
            with_counts.push(call);
            continue;
        }
        if rng.one_in(3) {
            let count = too_large(rng);
            with_counts.push(with(rng, place, count));
        }
        let count = if rng.one_in(2) { MOST } else { allowed(rng) };
        let is_plain = !with_counts.is_empty() && rng.one_in(4);
        with_counts.push(if is_plain { call } else { with(rng, place, count) });
    }
    if rng.one_in(4) {
        let count = too_large(rng);
        with_counts.push(with(rng, place, count));
    }
    *calls = with_counts;
    case
}

/// Openings with a unit outside its limits, and counts that would be refused too.
fn settings(rng: &mut Rng) -> Case {
    let units = match rng.below(2) {
        0 => Units { program: rng.pick(&[0, 3, 96, 257, 512, u16::MAX]), read: rng.pick(&[1, 4]) },
        _ => Units { program: rng.pick(&[1, 4, 256]), read: rng.pick(&[0, 3, 4_095, 4_097, 8_192]) },
    };
    let counts = |rng: &mut Rng| array::from_fn(|_| if rng.one_in(2) { too_large(rng) } else { allowed(rng) });
    let calls = (0..rng.between(1, 3)).map(|_| Call::OpenWith(Written::of(counts(rng)))).collect();
    let region = vec![0xFF; rng.below(80)];
    Case::Append { units, page_len: rng.below(80), region, calls }
}

/// A sum of any counts, or of such that come to about a stop.
fn sum(rng: &mut Rng) -> Case {
    let x: [u64; PLACES] = array::from_fn(|_| any(rng));
    let y = x.map(|count| {
        let rest = match rng.below(3) {
            0 => return any(rng),
            1 => STOP.saturating_sub(count),
            _ => u64::MAX - count,
        };
        rest.saturating_add(rng.below(3) as u64).saturating_sub(1)
    });
    Case::Sum { x: Written::of(x), y: Written::of(y) }
}

/// What is to come about, in each place, among the counts that the Rust does not have.
pub const SEEN: [&str; 7] = [
    "1 before a count above 2^62",
    "24 for 2^62 + 1 alone",
    "3 or 11, a count above 0",
    "gone on from 2^62",
    "a step past 4,294,967,295",
    "a sum from 4,294,967,295 on",
    "a sum stopped at 2^64 - 1",
];

/// How often that came about in an answer, by the order of `SEEN` and the places.
pub type Seen = [[u64; PLACES]; SEEN.len()];

pub fn seen(case: &Case, answer: &Answer) -> Seen {
    let mut seen = Seen::default();
    match (case, answer) {
        (Case::Append { calls, .. }, Answer::Append(after)) => {
            let mut before = Written::default();
            for (call, after) in calls.iter().zip(after) {
                if let Call::OpenWith(handed) = call {
                    opened(&mut seen, *handed, after.refused);
                }
                let now = after.journal.map_or_else(Written::default, |journal| journal.written);
                if handed(call).is_none() {
                    note(&mut seen[4], |place| before.counts()[place] <= STOP && now.counts()[place] > STOP);
                }
                before = now;
            }
        }
        (_, Answer::Counts(sums)) => {
            for (sum, _) in sums {
                note(&mut seen[5], |place| sum.counts()[place] >= STOP);
            }
            if let Case::Sum { x, y } = case {
                note(&mut seen[6], |place| x.counts()[place].checked_add(y.counts()[place]).is_none());
            }
        }
        _ => {}
    }
    seen
}

fn note(places: &mut [u64; PLACES], is_so: impl Fn(usize) -> bool) {
    places.iter_mut().enumerate().for_each(|(place, count)| *count += u64::from(is_so(place)));
}

/// Notes what an opening that was handed counts shows.
fn opened(seen: &mut Seen, handed: Written, refused: Option<Refused>) {
    let counts = handed.counts();
    let is_alone = |place| {
        let mut others = counts;
        others[place] = 0;
        counts[place] == MOST + 1 && may_go_on(Written::of(others))
    };
    match refused.map(|refused| refused.number) {
        Some(1) => note(&mut seen[0], |place| counts[place] > MOST),
        Some(TOO_LARGE) => note(&mut seen[1], is_alone),
        Some(_) => note(&mut seen[2], |place| counts[place] > 0),
        None => note(&mut seen[3], |place| counts[place] == MOST),
    }
}
