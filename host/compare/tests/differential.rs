//! 200,000 calls over built, damaged and random bytes: both answer alike, every refusal comes up in
//! every call that can give it, keys at fault in every sort of page, at every sort of entry, with and
//! without a fault of the other rule, in the places of a list of nodes every answer of the lookup,
//! checksums of every length under eight, over every rest of an eight and from every alignment, in every
//! call on an image an end-of-file number that is too high, and pages and blocks at the end of the file,
//! over it and behind it, and in calls on tables every fault, every sort of cell and every limit of rows,
//! columns and areas. All of this is met in both editions where it is of images; and so are, call by call,
//! every refusal with the header's places, roots of every level, versions that are refused, numbers that
//! have no room in four bytes, and blocks and heaps of every length about the most.

use compare::run::Run;
use compare::tally::refusals;

#[test]
fn differential() {
    let mut run = Run::new(1);
    run.make(200_000, |_| {});
    println!("{}", run.tally);
    println!("{} calls also with bit 0 the other way", run.either_way);
    println!("{} lists also node by node", run.one_by_one);
    println!("{} rows also cell by cell", run.cell_by_cell);
    println!(
        "{} calls also with other bytes behind the end",
        run.other_behind
    );
    println!(
        "{} calls, {} disagreements",
        run.calls,
        run.disagreements.len()
    );
    assert!(
        run.disagreements.is_empty(),
        "the proved library and the model disagree"
    );
    assert!(run.either_way > 10_000);
    assert!(run.one_by_one > 1_000);
    assert!(run.cell_by_cell > 500);
    assert!(run.other_behind > 10_000);
    for number in refusals() {
        assert!(
            run.tally.refusals(number) > 0,
            "refusal {number} was not reached"
        );
    }
    assert_eq!(run.tally.not_reached(), []);
    assert_eq!(run.tally.keys_not_reached(), []);
    assert!(run.tally.keys.keys().all(|fault| fault.can_occur()));
    assert_eq!(run.tally.lists_not_reached(), []);
    assert_eq!(run.tally.checksums_not_reached(), []);
    assert_eq!(run.tally.ends_not_reached(), []);
    assert_eq!(run.tally.editions_not_reached(), []);
    assert_eq!(run.tally.tables_not_reached(), []);
}
