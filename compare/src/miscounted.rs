//! Deliberate mistakes in our counts and in openings that are handed some; `faults` lists them.

use crate::counted::{MOST, STOP, TOO_LARGE, handed, may_go_on};
use crate::faults::bend_calls;
use crate::model::*;
use std::array;

/// Bends the counts of each journal; `bend` gets the call too, and whether it was refused.
fn bend_journals(side: &dyn Side, case: &Case, mut bend: impl FnMut(&Call, bool, &mut Written)) -> Answer {
    bend_calls(side, case, |call, after| {
        if let Some(journal) = &mut after.journal {
            bend(call, after.refused.is_some(), &mut journal.written);
        }
    })
}

pub fn up_at_barrier(side: &dyn Side, case: &Case) -> Answer {
    let mut staged = false;
    bend_journals(side, case, |call, refused, written| {
        match call {
            Call::Stage(..) if !refused => staged = true,
            Call::Barrier if !refused => staged = false,
            _ if handed(call).is_some() => staged = false,
            _ => {}
        }
        written.uncommitted_appends -= u64::from(staged);
    })
}

pub fn not_down_at_commit(side: &dyn Side, case: &Case) -> Answer {
    let mut committed = 0;
    bend_journals(side, case, |call, refused, written| {
        match call {
            Call::Commit if !refused => committed += 1,
            _ if handed(call).is_some() => committed = 0,
            _ => {}
        }
        written.uncommitted_appends += committed;
    })
}

pub fn up_where_refused(side: &dyn Side, case: &Case) -> Answer {
    bend_journals(side, case, |call, refused, written| {
        written.uncommitted_appends += u64::from(refused && matches!(call, Call::Stage(..)));
    })
}

pub fn journal_stops_at_32_bits(side: &dyn Side, case: &Case) -> Answer {
    bend_journals(side, case, |_, _, written| *written = Written::of(written.counts().map(|count| count.min(STOP))))
}

/// Bends each sum; `bend` gets the sum, its overhead, and what was added up where any counts were.
fn bend_sums(side: &dyn Side, case: &Case, bend: impl Fn(&mut (Written, u64), Option<(Written, Written)>)) -> Answer {
    let mut answer = side.answer(case);
    if let Answer::Counts(sums) = &mut answer {
        let added = if let Case::Sum { x, y } = case { Some((*x, *y)) } else { None };
        sums.iter_mut().for_each(|sum| bend(sum, added));
    }
    answer
}

pub fn sum_stops_at_32_bits(side: &dyn Side, case: &Case) -> Answer {
    bend_sums(side, case, |sum, _| sum.0 = Written::of(sum.0.counts().map(|count| count.min(STOP))))
}

pub fn overhead_stops_at_32_bits(side: &dyn Side, case: &Case) -> Answer {
    bend_sums(side, case, |sum, _| sum.1 = sum.1.min(STOP))
}

pub fn sum_wraps(side: &dyn Side, case: &Case) -> Answer {
    bend_sums(side, case, |sum, added| {
        if let Some((x, y)) = added {
            sum.0 = Written::of(array::from_fn(|place| x.counts()[place].wrapping_add(y.counts()[place])));
        }
    })
}

pub fn sum_lacks_uncommitted(side: &dyn Side, case: &Case) -> Answer {
    bend_sums(side, case, |sum, _| sum.0.uncommitted_appends = 0)
}

pub fn commit_says_all(side: &dyn Side, case: &Case) -> Answer {
    bend_calls(side, case, |_, after| {
        if let (Some(committed), Some(journal)) = (&mut after.committed, after.journal) {
            *committed = Written { uncommitted_appends: 0, ..journal.written };
        }
    })
}

pub fn commit_says_uncommitted(side: &dyn Side, case: &Case) -> Answer {
    bend_calls(side, case, |_, after| {
        if let Some(committed) = &mut after.committed {
            committed.uncommitted_appends = 1;
        }
    })
}

/// The case with other counts handed to its openings.
fn handing(case: &Case, other: impl Fn(Written) -> Written) -> Case {
    let mut case = case.clone();
    if let Case::Append { calls, .. } = &mut case {
        for call in calls {
            if let Call::OpenWith(handed) = call {
                *handed = other(*handed);
            }
        }
    }
    case
}

pub fn most_refused(side: &dyn Side, case: &Case) -> Answer {
    let other = |count| if count == MOST { MOST + 1 } else { count };
    side.answer(&handing(case, |handed| Written::of(handed.counts().map(other))))
}

pub fn uncommitted_unlooked_at(side: &dyn Side, case: &Case) -> Answer {
    let looked_at = |handed: Written| Written { uncommitted_appends: handed.uncommitted_appends.min(MOST), ..handed };
    let answer = side.answer(&handing(case, looked_at));
    let mut more = 0;
    bend_journals(&Known(answer), case, |call, _, written| {
        if let Some(handed) = handed(call) {
            more = handed.uncommitted_appends - looked_at(handed).uncommitted_appends;
        }
        written.uncommitted_appends = written.uncommitted_appends.saturating_add(more);
    })
}

/// A side that answers what is known already.
struct Known(Answer);

impl Side for Known {
    fn answer(&self, _: &Case) -> Answer {
        self.0.clone()
    }
}

pub fn not_gone_on_from(side: &dyn Side, case: &Case) -> Answer {
    side.answer(&handing(case, |handed| if may_go_on(handed) { Written::default() } else { handed }))
}

fn is_too_large(after: &AfterCall) -> bool {
    after.refused.is_some_and(|refused| refused.number == TOO_LARGE)
}

pub fn page_changed(side: &dyn Side, case: &Case) -> Answer {
    bend_calls(side, case, |_, after| {
        if is_too_large(after) {
            // As if the first header were read before the counts are looked at.
            after.page.iter_mut().zip(&after.region).take(12).for_each(|(byte, read)| *byte = *read);
        }
    })
}

pub fn before_settings(side: &dyn Side, case: &Case) -> Answer {
    bend_calls(side, case, |call, after| {
        if let (Call::OpenWith(handed), Some(refused @ Refused { number: 1, .. })) = (call, &mut after.refused)
            && !may_go_on(*handed)
        {
            refused.number = TOO_LARGE;
        }
    })
}

/// Asks of the region whether the opening would be refused without the counts, and gives that instead.
pub fn behind_recovery(side: &dyn Side, case: &Case) -> Answer {
    let Case::Append { units, .. } = case else { return side.answer(case) };
    bend_calls(side, case, |_, after| {
        if is_too_large(after) {
            let (page_len, region) = (after.page.len(), after.region.clone());
            let fresh = side.answer(&Case::Append { units: *units, page_len, region, calls: vec![Call::Open] });
            if let Answer::Append(fresh) = fresh {
                after.refused = fresh[0].refused.or(after.refused);
            }
        }
    })
}
