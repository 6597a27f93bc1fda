//! The cases of a fixed seed. Without optimisation there are fewer of them.

use differential::run_cases;

const CASES: u64 = if cfg!(debug_assertions) {
    10_000
} else {
    100_000
};

#[test]
fn sides_agree() {
    let outcome = run_cases(CASES, 2026, 2);
    print!("{}", outcome.counts.table());
    assert!(
        outcome.failures.is_empty(),
        "{}",
        outcome.failures.join("\n")
    );
    let missing = outcome.counts.missing();
    assert!(missing.is_empty(), "{}", missing.join("\n"));
}

/// The outcome of a case depends on its seed and index alone.
#[test]
fn threads_do_not_matter() {
    let one = run_cases(500, 7, 1);
    let three = run_cases(500, 7, 3);
    assert_eq!(one.counts.table(), three.counts.table());
}
