//! Deliberate mistakes in how many reads our recoveries have made; `faults` lists them.

use crate::bytes;
use crate::faults::bend_recovery;
use crate::model::*;

const HEADER: usize = 12;

/// What a step read before the recovery had ended.
struct Step<'a> {
    outcome: &'a Outcome,
    ending: u8,
    /// All of its reads, and those of the look with which it ended: none where it found a record.
    made: u64,
    last: u64,
    /// Records that it skipped, and the one that it found.
    records: u64,
    /// Bytes of the region behind where it stands now.
    rest: usize,
}

impl Step<'_> {
    fn number(&self) -> u8 {
        self.outcome.refused().map_or(0, |refused| refused.number)
    }

    /// Its reads, and one more where that is so.
    fn one_more(&self, is_so: bool) -> u64 {
        self.made + u64::from(is_so)
    }

    fn one_less(&self, is_so: bool) -> u64 {
        self.made - u64::from(is_so)
    }
}

/// Counts so many reads for each step as `bend` says.
fn bend_reads(side: &dyn Side, case: &Case, bend: impl Fn(&Step) -> u64) -> Answer {
    let Case::Recovery { units, region, .. } = case else { return side.answer(case) };
    let starts: Vec<usize> = bytes::walk(region, units.program).iter().map(|[at, ..]| *at).collect();
    let (mut before, mut reads, mut ending, mut counted) = (0, 0, OPEN, 0);
    bend_recovery(side, case, |step| {
        let now = step.offset as usize;
        if ending == OPEN {
            let records = starts.iter().filter(|at| (before..now).contains(at)).count() as u64;
            let made = step.reads - reads;
            let (outcome, ending, last) = (&step.outcome, step.ending, made - 2 * records);
            counted += bend(&Step { outcome, ending, made, last, records, rest: region.len() - now });
        }
        (before, reads, ending) = (now, step.reads, step.ending);
        step.reads = counted;
    })
}

pub fn headers_left_out(side: &dyn Side, case: &Case) -> Answer {
    bend_reads(side, case, |step| step.made - step.records - step.last.min(1))
}

pub fn records_left_out(side: &dyn Side, case: &Case) -> Answer {
    bend_reads(side, case, |step| step.made - step.records)
}

pub fn refused_header_counted(side: &dyn Side, case: &Case) -> Answer {
    bend_reads(side, case, |step| step.one_more(step.number() == 3 && step.last == 0))
}

pub fn refused_record_counted(side: &dyn Side, case: &Case) -> Answer {
    bend_reads(side, case, |step| step.one_more(step.number() == 3 && step.last == 1))
}

pub fn skipped_lost(side: &dyn Side, case: &Case) -> Answer {
    bend_reads(side, case, |step| if let Outcome::Found(_) = step.outcome { 2 } else { step.last })
}

pub fn refused_step_lost(side: &dyn Side, case: &Case) -> Answer {
    bend_reads(side, case, |step| if step.number() > 0 { 0 } else { step.made })
}

pub fn tail_counted_once(side: &dyn Side, case: &Case) -> Answer {
    // No other look has more than two.
    bend_reads(side, case, |step| step.made - step.last.saturating_sub(2))
}

pub fn spoiled_page_left_out(side: &dyn Side, case: &Case) -> Answer {
    // A 9 that has a place is a tail's.
    let has_place = |step: &Step| step.outcome.refused().is_some_and(|refused| refused.place.is_some());
    bend_reads(side, case, |step| step.one_less(step.number() == 9 && has_place(step)))
}

pub fn one_more_at_clean(side: &dyn Side, case: &Case) -> Answer {
    bend_reads(side, case, |step| step.one_more(step.ending == CLEAN))
}

pub fn one_at_the_end(side: &dyn Side, case: &Case) -> Answer {
    bend_reads(side, case, |step| step.one_more(step.ending == CLEAN && step.rest == 0))
}

pub fn short_tail_left_out(side: &dyn Side, case: &Case) -> Answer {
    bend_reads(side, case, |step| step.one_less(step.rest < HEADER && step.last == 1))
}

pub fn cut_short_counted(side: &dyn Side, case: &Case) -> Answer {
    bend_reads(side, case, |step| step.one_more(step.number() == 4 && step.rest >= HEADER))
}

pub fn other_region_counted(side: &dyn Side, case: &Case) -> Answer {
    bend_reads(side, case, |step| step.one_more(step.number() == 2))
}

pub fn anew_at_each_step(side: &dyn Side, case: &Case) -> Answer {
    let (mut reads, mut ending, mut made) = (0, OPEN, 0);
    bend_recovery(side, case, |step| {
        if ending == OPEN {
            made = step.reads - reads;
        }
        (reads, ending) = (step.reads, step.ending);
        step.reads = made;
    })
}

pub fn goes_on_past_the_end(side: &dyn Side, case: &Case) -> Answer {
    let (mut ending, mut more) = (OPEN, 0);
    bend_recovery(side, case, |step| {
        more += u64::from(ending != OPEN);
        ending = step.ending;
        step.reads += more;
    })
}

pub fn stops_at_16_bits(side: &dyn Side, case: &Case) -> Answer {
    bend_recovery(side, case, |step| step.reads = step.reads.min(u64::from(u16::MAX)))
}
