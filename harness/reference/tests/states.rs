//! The reachable states of the Equation 40 routes with capacities 1, 2, 1 (Table 1 of source
//! document 003), and those that the rows of Equation 40 admit.

mod document;

use document::{plan, table, EQUATION_40, WITHOUT_ROWS};
use reference::{Event, Plan, Table};
use std::collections::btree_map::{BTreeMap, Entry};
use std::collections::BTreeSet;

/// Jobs at stages 1 to 3 of type 1, then of type 2.
type State = [u8; 6];

/// Table 1, states 0 to 46.
const TABLE_1: &str = "000000 100000 000100 010000 100100 000010 110000 001000 010100 100010 \
    000110 000001 020000 101000 110100 010010 100110 000020 000101 120000 011000 020100 110010 \
    001010 010110 010001 100020 000120 000011 111000 120100 101010 110110 001001 010101 100120 \
    000111 021000 011010 010011 000021 121000 111010 011001 001011 010111 000121";

fn state(table: &Table) -> State {
    let mut state = [0; 6];
    for job in table.active() {
        state[(job.kind as usize - 1) * 3 + job.stage as usize - 1] += 1;
    }
    state
}

/// The states after each event that is admitted in a state.
fn successors(plan: &Plan, from: State) -> BTreeSet<State> {
    let before = table(from);
    let loads = (1..=2).map(|kind| Event::Load { job: 99, kind });
    let moves = before.active().iter().map(|job| job.number);
    let moves = moves.flat_map(|job| [Event::Advance { job }, Event::Unload { job }]);
    let mut found = BTreeSet::new();
    for event in loads.chain(moves) {
        let mut after = before.clone();
        if event.apply(plan, &mut after).number == 0 {
            found.insert(state(&after));
        }
    }
    found
}

/// Every state that is reached from the empty one, with its successors.
fn reachable(plan: &Plan) -> BTreeMap<State, BTreeSet<State>> {
    let mut graph = BTreeMap::new();
    let mut open = vec![[0; 6]];
    while let Some(next) = open.pop() {
        if let Entry::Vacant(slot) = graph.entry(next) {
            let after = successors(plan, next);
            open.extend(&after);
            slot.insert(after);
        }
    }
    graph
}

fn table_1() -> BTreeSet<State> {
    let parse = |word: &str| {
        let digits: Vec<u8> = word.bytes().map(|digit| digit - b'0').collect();
        State::try_from(digits).expect("six digits")
    };
    TABLE_1.split_whitespace().map(parse).collect()
}

#[test]
fn states_without_rows() {
    let graph = reachable(&plan(WITHOUT_ROWS));
    let states: BTreeSet<State> = graph.keys().copied().collect();
    assert_eq!(states.len(), 47);
    assert_eq!(states, table_1());
}

/// Source document 003: the rows of Equation 40 admit exactly the states from which the empty
/// one can be reached.
#[test]
fn states_with_rows() {
    let graph = reachable(&plan(WITHOUT_ROWS));
    let mut safe = BTreeSet::from([[0; 6]]);
    loop {
        let before = safe.len();
        let more = graph.iter().filter(|(_, after)| !after.is_disjoint(&safe));
        let more: Vec<State> = more.map(|(&state, _)| state).collect();
        safe.extend(more);
        if safe.len() == before {
            break;
        }
    }
    let admitted = reachable(&plan(EQUATION_40));
    assert_eq!(admitted.into_keys().collect::<BTreeSet<_>>(), safe);
}

/// Every job of a state can be pulled, at whichever stage it has, and what is left is a state of
/// Table 1. Of the 54 states within the capacities it lacks the 7 that have the jobs of 020001,
/// 001020 or 011011 among theirs; a job less gives none of these.
#[test]
fn pulls_stay_within_the_states() {
    let plan = plan(WITHOUT_ROWS);
    let states = table_1();
    for &before in &states {
        for job in table(before).active() {
            let mut after = table(before);
            let pulled = Event::Pull { job: job.number }.apply(&plan, &mut after);
            assert_eq!((pulled.number, pulled.place), (0, 0));
            let mut expected = before;
            expected[(job.kind as usize - 1) * 3 + job.stage as usize - 1] -= 1;
            assert_eq!(state(&after), expected);
            assert!(states.contains(&expected));
        }
    }
}
