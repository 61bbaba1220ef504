//! Deliberate mistakes on either side, to see that the comparison can fail.
//!
//! Each is a copy of a side that is asked something else, or whose answer is bent, as an implementation with that
//! mistake would answer. It is caught where the true sides agree and the copy does not.

use crate::bytes;
use crate::foreign::{is_not_erased, places, refused_at, refusing};
use crate::model::*;
use crate::place::first_written;
use crate::run::{self, Plan, agree};
use crate::{miscounted, misplaced, misread};
use std::ops::Range;

#[derive(Clone, Copy, PartialEq, Eq)]
pub enum Whose {
    Ours,
    Rust,
}

pub struct Fault {
    pub whose: Whose,
    pub name: &'static str,
    wrong: fn(&dyn Side, &Case) -> Answer,
}

const fn ours(name: &'static str, wrong: fn(&dyn Side, &Case) -> Answer) -> Fault {
    Fault { whose: Whose::Ours, name, wrong }
}

const fn rust(name: &'static str, wrong: fn(&dyn Side, &Case) -> Answer) -> Fault {
    Fault { whose: Whose::Rust, name, wrong }
}

pub const FAULTS: [Fault; 83] = [
    ours("the frame check has a bit flipped", frame_check_flipped),
    rust("the header check lacks its complement", no_complement),
    rust("a payload of 65,535 bytes is too long", longest_refused),
    ours("sealed frames hold a wrong frame check", sealed_wrongly),
    rust("the seal is not ANDed with 0x7F", seal_without_and),
    ours("encode writes one byte past the record", writes_past),
    ours("the header check is not looked at", header_check_ignored),
    rust("the version is not looked at", version_ignored),
    rust("the payload is looked at before the frame check", payload_first),
    ours("unknown kinds are refused by decode", unknown_refused),
    rust("the needed length is one too many", needed_off),
    ours("the page is left as it was", page_unread),
    ours("the page is not rounded down to the read unit", page_not_rounded),
    ours("kind 2 is skipped like 3", kind_2_skipped),
    ours("an erased slot passes for a seal", erased_is_sealed),
    ours("a slot with few bits programmed is skipped", torn_slot_skipped),
    rust("padding is looked at under a good seal", padding_checked),
    rust("a record after a skip has the step's offset", offset_before_skip),
    ours("damaged is taken for clean", clean_where_damaged),
    rust("after its end it refuses again", refuses_again),
    rust("scan compares lengths before it decodes", scan_length_first),
    ours("commit counts one byte too many", count_off),
    rust("stage gives 8 for a clock kind", clock_kind_8),
    ours("stage programs the slot too", stage_seals),
    rust("the available length is one short", available_off),
    ours("stage does not look at the slot", slot_unseen),
    ours("stage does not look at the body", body_unseen),
    ours("stage gives 18 before 13", room_later),
    ours("stage gives 5 for a short page before 18", page_sooner),
    ours("stage looks at the byte behind the record too", looks_behind),
    ours("stage programs although it gives 18", programs_over),
    ours("find takes kinds without a sequence too", find_all_kinds),
    rust("counts wrap around at their limit", counts_wrap),
    ours("recovery gives no place", misplaced::none_in_recovery),
    ours("scan gives no place", misplaced::none_in_scan),
    ours("a tail's place counts from its own start", misplaced::from_tail),
    ours("a tail's place counts within the chunk", misplaced::within_chunk),
    ours("a tail's place is its last", misplaced::last_in_tail),
    ours("a 9 for a header has a place", misplaced::at_header),
    ours("a 4 for a short tail has a place", misplaced::at_short_tail),
    ours("an unsealed record's place counts from its start", misplaced::from_record),
    ours("an unsealed record's place is its last", misplaced::last_behind_frame),
    ours("an unsealed record's place lies in its frame", misplaced::in_frame),
    ours("an unsealed record's place lies in its slot", misplaced::in_slot),
    ours("a 10 of kind 2 has a place", misplaced::at_kind_2),
    ours("a 10 of every kind has a place", misplaced::at_every_kind),
    ours("a place counts from before what was skipped", misplaced::before_skipped),
    ours("stage gives 18 without a place", misplaced::none_in_stage),
    ours("stage's place counts from the append offset", misplaced::from_append_offset),
    ours("stage's place is the last", misplaced::last_in_stage),
    ours("open's 11 has a place", misplaced::at_opening),
    ours("barrier and not stage counts an uncommitted append", miscounted::up_at_barrier),
    ours("commit leaves the append uncommitted", miscounted::not_down_at_commit),
    ours("a refused stage counts an uncommitted append", miscounted::up_where_refused),
    ours("a journal's counts stop at 32 bits", miscounted::journal_stops_at_32_bits),
    ours("a sum's counts stop at 32 bits", miscounted::sum_stops_at_32_bits),
    ours("a sum's overhead stops at 32 bits", miscounted::overhead_stops_at_32_bits),
    ours("a sum's counts wrap at 64 bits", miscounted::sum_wraps),
    ours("a sum lacks the uncommitted appends", miscounted::sum_lacks_uncommitted),
    ours("commit says what the journal wrote so far", miscounted::commit_says_all),
    ours("commit says that its append is uncommitted", miscounted::commit_says_uncommitted),
    ours("a count of 2^62 is refused with 24", miscounted::most_refused),
    ours("24 does not look at the uncommitted appends", miscounted::uncommitted_unlooked_at),
    ours("an opening starts at zero whatever it is handed", miscounted::not_gone_on_from),
    ours("the page is read before 24", miscounted::page_changed),
    ours("24 comes before 1", miscounted::before_settings),
    ours("24 comes after 3 and 11", miscounted::behind_recovery),
    ours("headers' reads are not counted", misread::headers_left_out),
    ours("records' reads are not counted", misread::records_left_out),
    ours("a header's read that is refused counts", misread::refused_header_counted),
    ours("a record's read that is refused counts", misread::refused_record_counted),
    ours("the reads of what was skipped are lost", misread::skipped_lost),
    ours("the reads of a refused step are lost", misread::refused_step_lost),
    ours("a tail's pages count as one read", misread::tail_counted_once),
    ours("a tail's page that is spoiled does not count", misread::spoiled_page_left_out),
    ours("a clean end counts one read more", misread::one_more_at_clean),
    ours("a region that is read to its end counts one more", misread::one_at_the_end),
    ours("a tail shorter than a header does not count", misread::short_tail_left_out),
    ours("a record that the region cuts short counts", misread::cut_short_counted),
    ours("a step on another region's length counts", misread::other_region_counted),
    ours("reads count anew at each step", misread::anew_at_each_step),
    ours("reads count on past the end", misread::goes_on_past_the_end),
    ours("reads stop at 16 bits", misread::stops_at_16_bits),
];

/// For each fault, the name and kind of the first case that caught it.
pub fn run(our_side: &dyn Side, their_side: &dyn Side, plan: Plan) -> Vec<Option<String>> {
    let mut caught: Vec<Option<String>> = FAULTS.iter().map(|_| None).collect();
    run::each(plan, 0, 1, &mut |name, case| {
        let truth = their_side.answer(&case);
        if truth == Answer::NotAccepted || !agree(&case, &our_side.answer(&case), &truth) {
            return;
        }
        for (fault, caught) in FAULTS.iter().zip(&mut caught) {
            let side = if fault.whose == Whose::Ours { our_side } else { their_side };
            if caught.is_none() && !agree(&case, &(fault.wrong)(side, &case), &truth) {
                *caught = Some(format!("{}, {}", KINDS[case.kind()], name()));
            }
        }
    });
    caught
}

fn frame_check_flipped(side: &dyn Side, case: &Case) -> Answer {
    match side.answer(case) {
        Answer::Checks { header, frame } => Answer::Checks { header, frame: frame ^ 0x8000_0000 },
        answer => answer,
    }
}

fn no_complement(side: &dyn Side, case: &Case) -> Answer {
    match side.answer(case) {
        Answer::Checks { header, frame } => Answer::Checks { header: !header, frame },
        answer => answer,
    }
}

fn longest_refused(side: &dyn Side, case: &Case) -> Answer {
    match case {
        // One more than the longest is refused as it should be.
        Case::LengthFor { payload_bytes: 65_535, align } => {
            side.answer(&Case::LengthFor { payload_bytes: 65_536, align: *align })
        }
        _ => side.answer(case),
    }
}

/// Bends the output of an encode that was not refused; `bend` gets the payload's length, the record's and the output.
fn bend_output(side: &dyn Side, case: &Case, bend: fn(usize, usize, &mut Vec<u8>)) -> Answer {
    let mut answer = side.answer(case);
    if let Answer::Encode { payload_len: Ok(payload), encode: Ok(len), out, .. } = &mut answer {
        bend(*payload, *len, out);
    }
    answer
}

fn sealed_wrongly(side: &dyn Side, case: &Case) -> Answer {
    bend_output(side, case, |payload, _, out| out[12 + payload] ^= 1)
}

fn seal_without_and(side: &dyn Side, case: &Case) -> Answer {
    let Case::Encode { align, .. } = case else { return side.answer(case) };
    let slot_len = usize::from(*align);
    let mut answer = side.answer(case);
    if let Answer::Encode { payload_len: Ok(payload), encode: Ok(len), out, .. } = &mut answer {
        for at in 0..slot_len {
            out[*len - slot_len + at] = out[12 + *payload + at % 4];
        }
    }
    answer
}

fn writes_past(side: &dyn Side, case: &Case) -> Answer {
    bend_output(side, case, |_, len, out| out.iter_mut().skip(len).take(1).for_each(|byte| *byte = 0xFF))
}

fn header_check_ignored(side: &dyn Side, case: &Case) -> Answer {
    let mut case = case.clone();
    if let Case::Decode { bytes } = &mut case {
        bytes::repair_header(bytes);
    }
    side.answer(&case)
}

fn version_ignored(side: &dyn Side, case: &Case) -> Answer {
    let Answer::Decode { decoded: Err(Refused { number: 7, .. }), .. } = side.answer(case) else {
        return side.answer(case);
    };
    let mut case = case.clone();
    if let Case::Decode { bytes } = &mut case {
        bytes[2] = 1;
        bytes::repair_header(bytes);
        bytes::repair_frame(bytes);
    }
    side.answer(&case)
}

fn payload_first(side: &dyn Side, case: &Case) -> Answer {
    let mut repaired = case.clone();
    if let Case::Decode { bytes } = &mut repaired {
        bytes::repair_frame(bytes);
    }
    match side.answer(&repaired) {
        answer @ Answer::Decode { decoded: Err(Refused { number: 8, .. }), .. } => answer,
        _ => side.answer(case),
    }
}

fn unknown_refused(side: &dyn Side, case: &Case) -> Answer {
    let mut answer = side.answer(case);
    if let Answer::Decode { decoded, .. } = &mut answer
        && decoded.is_ok_and(|decoded| !decoded.known)
    {
        *decoded = Err(Refused::plain(6));
    }
    answer
}

/// Bends each step of a recovery.
pub fn bend_recovery(side: &dyn Side, case: &Case, bend: impl FnMut(&mut RecoveryStep)) -> Answer {
    let mut answer = side.answer(case);
    if let Answer::Recovery(steps) = &mut answer {
        steps.iter_mut().for_each(bend);
    }
    answer
}

fn needed_off(side: &dyn Side, case: &Case) -> Answer {
    bend_recovery(side, case, |step| {
        if let Outcome::Refused(refused @ Refused { number: 3, .. }) = &mut step.outcome {
            refused.needed += 1;
        }
    })
}

fn page_unread(side: &dyn Side, case: &Case) -> Answer {
    bend_recovery(side, case, |step| step.page.fill(BEFORE))
}

fn page_not_rounded(side: &dyn Side, case: &Case) -> Answer {
    let mut longer = case.clone();
    let Case::Recovery { units, page_len, .. } = &mut longer else { return side.answer(case) };
    let given = std::mem::replace(page_len, bytes::round_up(*page_len, units.read));
    bend_recovery(side, &longer, |step| step.page.truncate(given))
}

/// Asks about the same region or slice with each record changed; `change` gets the frame's end, the slot and the bytes
/// from the record's start.
fn with_records(side: &dyn Side, case: &Case, change: fn(usize, usize, &mut [u8])) -> Answer {
    let mut case = case.clone();
    let (align, region) = match &mut case {
        Case::Recovery { units, region, .. } => (units.program, region),
        Case::Scan { align, journal } => (*align, journal),
        _ => return side.answer(&case),
    };
    for [at, frame_end, slot, end] in bytes::walk(region, align) {
        change(frame_end - at, slot - at, &mut region[at..end]);
    }
    side.answer(&case)
}

fn kind_2_skipped(side: &dyn Side, case: &Case) -> Answer {
    with_records(side, case, |frame_end, _, record| {
        if record[3] == 2 && record[frame_end..].iter().all(|byte| *byte == 0xFF) {
            record[3] = 3;
            bytes::repair_header(record);
            bytes::repair_frame(record);
        }
    })
}

fn erased_is_sealed(side: &dyn Side, case: &Case) -> Answer {
    with_records(side, case, |frame_end, slot, record| {
        if record[slot..].iter().all(|byte| *byte == 0xFF) {
            let seal = bytes::seal(&record[..frame_end], (record.len() - slot) as u16);
            record[slot..].copy_from_slice(&seal);
        }
    })
}

fn torn_slot_skipped(side: &dyn Side, case: &Case) -> Answer {
    with_records(side, case, |_, slot, record| {
        let programmed: u32 = record[slot..].iter().map(|byte| byte.count_zeros()).sum();
        if programmed == 1 {
            record[slot..].fill(0xFF);
        }
    })
}

fn padding_checked(side: &dyn Side, case: &Case) -> Answer {
    let mut answer = side.answer(case);
    if let (Case::Scan { align, journal }, Answer::Scan(steps)) = (case, &mut answer) {
        for step in steps {
            let Outcome::Found(found) = step.outcome else { continue };
            let padding = found.offset + 16 + found.payload.len..found.offset + found.len - usize::from(*align);
            if journal[padding].iter().any(|byte| *byte != 0xFF) {
                step.outcome = Outcome::Refused(Refused::plain(10));
            }
        }
    }
    answer
}

fn offset_before_skip(side: &dyn Side, case: &Case) -> Answer {
    let mut before = 0;
    bend_recovery(side, case, |step| {
        if let Outcome::Found(found) = &mut step.outcome {
            found.offset = before;
        }
        before = step.offset as usize;
    })
}

fn clean_where_damaged(side: &dyn Side, case: &Case) -> Answer {
    bend_recovery(side, case, |step| {
        if step.ending == DAMAGED {
            step.ending = CLEAN;
        }
    })
}

fn refuses_again(side: &dyn Side, case: &Case) -> Answer {
    let mut last = Outcome::Ended;
    bend_recovery(side, case, |step| match step.outcome {
        Outcome::Ended => step.outcome = last,
        outcome => last = outcome,
    })
}

fn scan_length_first(side: &dyn Side, case: &Case) -> Answer {
    let mut answer = side.answer(case);
    if let (Case::Scan { align, journal }, Answer::Scan(steps)) = (case, &mut answer) {
        for step in steps {
            let Outcome::Refused(Refused { number: 8 | 9, .. }) = step.outcome else { continue };
            let rest = &journal[step.offset..];
            let header = Case::Decode { bytes: rest.to_vec() };
            let Answer::Decode { frame_len_of: Ok(frame_len), .. } = side.answer(&header) else { continue };
            if bytes::record_len(frame_len - 16, *align) > rest.len() {
                step.outcome = Outcome::Refused(Refused::plain(4));
            }
        }
    }
    answer
}

/// Bends what each call of a list answered and left.
pub fn bend_calls(side: &dyn Side, case: &Case, mut bend: impl FnMut(&Call, &mut AfterCall)) -> Answer {
    let mut answer = side.answer(case);
    if let (Case::Append { calls, .. }, Answer::Append(after)) = (case, &mut answer) {
        calls.iter().zip(after).for_each(|(call, after)| bend(call, after));
    }
    answer
}

fn count_off(side: &dyn Side, case: &Case) -> Answer {
    bend_calls(side, case, |_, after| {
        if let Some(written) = &mut after.committed {
            written.programmed_bytes += 1;
        }
    })
}

fn clock_kind_8(side: &dyn Side, case: &Case) -> Answer {
    bend_calls(side, case, |call, after| match (call, &mut after.refused) {
        (Call::Stage(Record { kind: 5, clock_kind: 0 | 3.., .. }, _), Some(refused)) if refused.number == 5 => {
            refused.number = 8;
        }
        _ => {}
    })
}

fn stage_seals(side: &dyn Side, case: &Case) -> Answer {
    let Case::Append { units, .. } = case else { return side.answer(case) };
    bend_calls(side, case, |call, after| {
        if let (Call::Stage(..), None, Some(journal)) = (call, after.refused, after.journal) {
            // The whole record stands in the page.
            let len = bytes::payload_len(&after.page).map_or(0, |payload| bytes::record_len(payload, units.program));
            let at = journal.offset as usize;
            program(&mut after.region, at, &after.page[..len]);
        }
    })
}

fn available_off(side: &dyn Side, case: &Case) -> Answer {
    bend_calls(side, case, |_, after| {
        if let Some(refused @ Refused { number: 13, .. }) = &mut after.refused {
            refused.available = refused.available.saturating_sub(1);
        }
    })
}

/// Asks without what strangers wrote to some of the places that the first stage refused with 18 was to take; `unseen`
/// gets the record's places and its slot. Then that is laid over what was left: ANDs may be made in any order.
fn without_seeing(side: &dyn Side, case: &Case, unseen: fn(Range<usize>, usize) -> Range<usize>) -> Answer {
    let answer = side.answer(case);
    let (Case::Append { units, calls, .. }, Answer::Append(after)) = (case, &answer) else { return answer };
    let Some(at) = after.iter().position(is_not_erased) else { return answer };
    let Some(record) = places(units.program, &calls[at], &after[at - 1]) else { return answer };
    let slot = record.end - usize::from(units.program);
    let unseen = unseen(record, slot);
    let mut asked = case.clone();
    let Case::Append { calls: asked_calls, .. } = &mut asked else { return answer };
    for call in asked_calls {
        if let Call::Foreign { at, bytes } = call {
            let hidden = (*at..).zip(bytes).filter(|(place, _)| unseen.contains(place));
            hidden.for_each(|(_, byte)| *byte = 0xFF);
        }
    }
    let mut answer = side.answer(&asked);
    if let Answer::Append(after) = &mut answer {
        for (upto, after) in after.iter_mut().enumerate() {
            for call in &calls[..=upto] {
                if let Call::Foreign { at, bytes } = call {
                    program(&mut after.region, *at, bytes);
                }
            }
        }
    }
    answer
}

fn slot_unseen(side: &dyn Side, case: &Case) -> Answer {
    without_seeing(side, case, |record, slot| slot..record.end)
}

fn body_unseen(side: &dyn Side, case: &Case) -> Answer {
    without_seeing(side, case, |record, slot| record.start..slot)
}

fn room_later(side: &dyn Side, case: &Case) -> Answer {
    bend_calls(side, case, |call, after| {
        let (Call::Stage(..), Some(journal)) = (call, after.journal) else { return };
        let at_13 = after.refused.is_some_and(|refused| refused.number == 13);
        if at_13 && let Some(place) = first_written(&after.region, journal.offset as usize..after.region.len()) {
            after.refused = Some(refused_at(place));
        }
    })
}

fn page_sooner(side: &dyn Side, case: &Case) -> Answer {
    let Case::Append { units, .. } = case else { return side.answer(case) };
    bend_calls(side, case, |call, after| {
        // A refused stage leaves the journal, so the record's places are those from before.
        let needed = places(units.program, call, after).map_or(0, |record| record.len());
        if is_not_erased(after) && after.page.len() < needed {
            after.refused = Some(Refused::plain(5));
        }
    })
}

fn looks_behind(side: &dyn Side, case: &Case) -> Answer {
    refusing(side, case, &|align, call, before, after| {
        let end = places(align, call, before)?.end;
        if after.refused.is_none() { first_written(&before.region, end..end + 1) } else { None }
    })
}

fn programs_over(side: &dyn Side, case: &Case) -> Answer {
    let Case::Append { units, .. } = case else { return side.answer(case) };
    let align = units.program;
    bend_calls(side, case, |call, after| {
        let (Call::Stage(record, free), true) = (call, is_not_erased(after)) else { return };
        let Some(places) = places(align, call, after) else { return };
        let encode = Case::Encode { align, record: *record, free: free.clone(), out_len: places.len() };
        if let Answer::Encode { body_len: Ok(body), out, .. } = side.answer(&encode) {
            program(&mut after.region, places.start, &out[..body]);
        }
    })
}

fn find_all_kinds(side: &dyn Side, case: &Case) -> Answer {
    let mut answer = side.answer(case);
    let Case::Find { units, page_len, region, seq } = case else { return answer };
    let recovery = Case::Recovery { units: *units, held: region.len(), page_len: *page_len, region: region.clone() };
    if let (Answer::Find { offset: Ok(offset), .. }, Answer::Recovery(steps)) = (&mut answer, side.answer(&recovery)) {
        let records = steps.iter().filter_map(|step| match step.outcome {
            Outcome::Found(found) if found.record.seq == *seq => Some(found.offset as u32),
            _ => None,
        });
        *offset = records.max();
    }
    answer
}

fn counts_wrap(side: &dyn Side, case: &Case) -> Answer {
    let mut answer = side.answer(case);
    if let (Case::Counts { doublings, .. }, Answer::Counts(sums)) = (case, &mut answer) {
        // The first sum that is not made by doubling nothing is one append's counts.
        let one = doublings
            .iter()
            .zip(sums.iter())
            .find(|(double, _)| !**double)
            .map_or(0, |(_, sum)| sum.0.programmed_bytes as u32);
        let mut bytes = 0_u32;
        for (double, sum) in doublings.iter().zip(sums) {
            bytes = bytes.wrapping_add(if *double { bytes } else { one });
            sum.0.programmed_bytes = bytes.into();
        }
    }
    answer
}
