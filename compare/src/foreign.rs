//! Strangers: something else writes into a region while its journal is ready. Lists of calls with such writes, what
//! stands for the Rust's answer where stage refuses because of one, and that what was written stays.

use crate::bytes;
use crate::generate::{self, expressible, fixed_len};
use crate::model::*;
use crate::place::first_written;
use crate::rng::Rng;
use crate::theirs::Theirs;
use std::collections::HashMap;
use std::ops::Range;

/// The number of stage's refusal where its record is to take a byte that is not 0xFF. The Rust has none: it programs
/// over that.
pub const NOT_ERASED: u8 = 18;

/// A side that does not look before it stages, asked without the stages that document 02's d) has refused with 18. In
/// place of their answers stands that refusal, with its place, and all as it was: a side that agrees refuses these and
/// no others.
pub struct Looking<'a>(pub &'a dyn Side);

impl Side for Looking<'_> {
    fn answer(&self, case: &Case) -> Answer {
        refusing(self.0, case, &|align, call, before, after| self.meets(align, call, before, after))
    }
}

impl Looking<'_> {
    /// The first byte that is not 0xFF of those that a record is to take, where the call is a stage that the side takes
    /// or refuses for a short page alone.
    fn meets(&self, align: u16, call: &Call, before: &AfterCall, after: &AfterCall) -> Option<u32> {
        let (Call::Stage(record, free), Some(places)) = (call, places(align, call, before)) else { return None };
        let looks = match after.refused {
            None => true,
            // A record that cannot be encoded is refused with 5 too, and sooner.
            Some(Refused { number: 5, .. }) => {
                let encode = Case::Encode { align, record: *record, free: free.clone(), out_len: places.len() };
                matches!(self.0.answer(&encode), Answer::Encode { encode: Ok(_), .. })
            }
            _ => false,
        };
        if looks { first_written(&before.region, places) } else { None }
    }
}

/// The places that the record of a stage is to take; they may end past the region.
pub fn places(align: u16, call: &Call, before: &AfterCall) -> Option<Range<usize>> {
    let (Call::Stage(record, free), Some(journal)) = (call, before.journal) else { return None };
    let start = journal.offset as usize;
    Some(start..start + bytes::record_len(fixed_len(record.kind) + free.len(), align))
}

/// The place in a call's refusal 18, none where it is not to have that one, by the program unit, the call, and what
/// there was before and after it.
pub type Refuses<'a> = &'a dyn Fn(u16, &Call, &AfterCall, &AfterCall) -> Option<u32>;

/// The side's answer to a list without some of its calls; in their places stands refusal 18, and all as it was.
pub fn refusing(side: &dyn Side, case: &Case, refuses: Refuses) -> Answer {
    let mut asked = case.clone();
    let mut left_out = Vec::new();
    loop {
        let mut answer = side.answer(&asked);
        let (Case::Append { units, calls, .. }, Answer::Append(after)) = (&mut asked, &mut answer) else {
            return answer;
        };
        // The first call is an opening.
        let place = |at: usize| Some((at, refuses(units.program, &calls[at], &after[at - 1], &after[at])?));
        if let Some((at, place)) = (1..after.len()).find_map(place) {
            calls.remove(at);
            left_out.push((at + left_out.len(), place));
            continue;
        }
        for (at, place) in left_out {
            let before = after[at - 1].clone();
            after.insert(at, AfterCall { refused: Some(refused_at(place)), committed: None, ..before });
        }
        return answer;
    }
}

/// Refusal 18 for the byte at this place.
pub fn refused_at(place: u32) -> Refused {
    Refused { place: Some(place), ..Refused::plain(NOT_ERASED) }
}

/// Whether a call was refused with 18.
pub fn is_not_erased(after: &AfterCall) -> bool {
    after.refused.is_some_and(|refused| refused.number == NOT_ERASED)
}

/// How many calls of a list were refused with 18.
pub fn not_erased(answer: &Answer) -> u64 {
    let Answer::Append(after) = answer else { return 0 };
    after.iter().filter(|after| is_not_erased(after)).count() as u64
}

/// Whether every byte of a stranger's that is not 0xFF, at the journal's offset or beyond, is after each later call as
/// the last stranger there left it.
pub fn kept(case: &Case, answer: &Answer) -> bool {
    let (Case::Append { calls, .. }, Answer::Append(after)) = (case, answer) else { return true };
    let mut written = HashMap::new();
    calls.iter().zip(after).all(|(call, AfterCall { journal, region, .. })| {
        if let (Call::Foreign { at, bytes }, Some(journal)) = (call, journal) {
            let places = (*at).max(journal.offset as usize)..region.len().min(at + bytes.len());
            written.extend(places.filter(|place| region[*place] != 0xFF).map(|place| (place, region[place])));
        }
        written.iter().all(|(place, byte)| region[*place] == *byte)
    })
}

/// The random case of that seed and number; once in three, strangers write in a list. They have random numbers of their
/// own, since the fixed list is made of the lists as they are without them.
pub fn case(seed: u64, number: u64) -> Case {
    let mut rng = Rng::for_case(!seed, number);
    let mut case = generate::case(seed, number);
    if !matches!(case, Case::Append { .. }) || !rng.one_in(3) {
        return case;
    }
    for _ in 0..rng.between(1, 3) {
        case = written_in(&mut rng, case);
    }
    if let Case::Append { calls, .. } = &mut case
        && rng.one_in(2)
    {
        calls.push(Call::Open);
    }
    expressible(case)
}

/// The list with one more write, where it has a place for one.
fn written_in(rng: &mut Rng, mut case: Case) -> Case {
    let answer = Looking(&Theirs).answer(&case);
    let (Case::Append { units, region, calls, .. }, Answer::Append(after)) = (&mut case, answer) else { return case };
    let ready: Vec<usize> = (1..=after.len()).filter(|upto| is_ready(&calls[..*upto], &after[..*upto])).collect();
    if ready.is_empty() {
        return case;
    }
    let upto = rng.pick(&ready);
    let before = &after[upto - 1];
    let next = calls.get(upto).and_then(|call| places(units.program, call, before));
    let offset = before.journal.map_or(0, |journal| journal.offset as usize);
    let at = place(rng, units.program, next.unwrap_or(offset..region.len())).min(region.len() - 1);
    let len = if rng.one_in(3) { rng.between(1, 20) } else { 1 };
    let mut bytes = rng.bytes(len);
    if rng.one_in(2) {
        bytes.fill(rng.pick(&[0, 0x57, 0x7F, 0xFE, 0xFF]));
    }
    calls.insert(upto, Call::Foreign { at, bytes });
    expressible(case)
}

/// Whether these calls of a list leave a journal with no record under way.
fn is_ready(calls: &[Call], after: &[AfterCall]) -> bool {
    let taken = calls.iter().zip(after).rev().filter(|(_, after)| after.refused.is_none());
    let last = taken.map(|(call, _)| call).find(|call| matches!(call, Call::Open | Call::Stage(..) | Call::Commit));
    matches!(last, Some(Call::Open | Call::Commit)) && after.last().is_some_and(|after| after.journal.is_some())
}

/// A place for a stranger's write, most often in or around the record that comes next.
fn place(rng: &mut Rng, align: u16, record: Range<usize>) -> usize {
    let slot_len = usize::from(align);
    let slot = record.end.saturating_sub(slot_len);
    match rng.below(8) {
        0 => record.start,
        1 => record.start.saturating_sub(rng.between(1, 20)),
        2 => record.start + rng.below(record.len()),
        3 => slot.saturating_sub(1),
        4 => slot + rng.below(slot_len),
        5 => record.end,
        6 => record.end + rng.below(60),
        _ => usize::MAX,
    }
}

#[cfg(test)]
mod tests {
    use super::*;

    #[test]
    fn a_side_that_does_not_look_changes_what_a_stranger_wrote() {
        let stage = Call::Stage(Record { kind: 6, seq: 7, ..Record::default() }, Vec::new());
        // The last byte is the slot, whose seal is 0x09.
        let foreign = Call::Foreign { at: 16, bytes: vec![0x7F] };
        let calls = vec![Call::Open, foreign, stage, Call::Barrier, Call::Commit];
        let units = Units { program: 1, read: 1 };
        let case = Case::Append { units, page_len: 17, region: vec![0xFF; 17], calls };
        let answer = Theirs.answer(&case);
        assert!(matches!(&answer, Answer::Append(after) if after[4].region[16] == 0x09));
        assert!(!kept(&case, &answer));

        let answer = Looking(&Theirs).answer(&case);
        assert!(matches!(&answer, Answer::Append(after) if after.len() == 3 && after[2].region == after[1].region));
        assert!(matches!(&answer, Answer::Append(after) if after[2].refused == Some(refused_at(16))));
        assert!(kept(&case, &answer));
        assert_eq!(not_erased(&answer), 1);
    }
}
