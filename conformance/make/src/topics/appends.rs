//! Regions that the library's own appends made, with and without cuts.

use super::one_of_each;
use crate::set::{region, Set};
use jardolento::{Journal, RecordRef};

/// How far an append came.
#[derive(Clone, Copy)]
enum Upto {
    Stage,
    Commit,
}

pub fn add(set: &mut Set) {
    let run = |wanted: &[(usize, Upto)]| {
        let mut bytes = vec![0xFF; 400];
        for (kind, upto) in wanted {
            append(&mut bytes, one_of_each()[kind - 1], *upto);
        }
        region(8).read(4).bytes(&bytes)
    };
    use Upto::{Commit, Stage};
    let whole: Vec<_> = [1, 2, 3, 5, 6, 9, 7].map(|kind| (kind, Commit)).to_vec();
    set.add("append-run", "a run appended step by step", run(&whole));
    let again = [(1, Commit), (2, Commit), (3, Stage), (3, Stage), (3, Commit), (7, Commit)];
    set.add("append-again", "an effect's completion staged twice, then committed", run(&again));
    set.add("append-open", "a run whose last step was staged alone: 10", run(&[(1, Commit), (2, Commit), (5, Stage)]));
    set.add(
        "append-skipped",
        "a run whose last step was a timer that was staged alone",
        run(&[(1, Commit), (6, Stage)]),
    );
}

/// Opens the region, appends, and gives the append up where it was to come no further.
fn append(bytes: &mut [u8], record: RecordRef<'_>, upto: Upto) {
    let mut page = vec![0; 69_632];
    let mut journal = Journal::open(8, 4, bytes, &mut page).expect("the region can be opened");
    journal.stage(record, bytes, &mut page).expect("the record fits");
    if let Upto::Commit = upto {
        journal.payload_barrier(bytes).expect("the body is staged");
        journal.commit(bytes).expect("the body is confirmed");
    }
}
