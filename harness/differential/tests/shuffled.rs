//! Texts of the same plans in another order, with leading zeros, comments and empty lines: each is
//! read, and written in the plan's canonical form (document 02, S-3).

use differential::counts::Group;
use differential::run_shuffled;

const TEXTS: u64 = 10_000;

#[test]
fn one_canonical_form() {
    let outcome = run_shuffled(TEXTS, 2026, 2);
    assert!(
        outcome.failures.is_empty(),
        "{}",
        outcome.failures.join("\n")
    );
    let texts = outcome.counts.of(Group::Shuffled, 0);
    println!("{texts} shuffled texts, each written in its plan's canonical form");
    assert_eq!(texts, TEXTS);
}
