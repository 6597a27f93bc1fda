//! A host in Rust: it reads a plan into a cell, asks whether the cell can lock, moves two jobs and
//! empties the cell. `cell.expected` is what it prints.

use rilthoss::{number, offset, Answer, CELL_SIZE};

/// Two stations that hold a job each, and a type that goes from the one to the other. Row 1 counts the
/// jobs at station 1, row 2 those at station 2 or on their way to it.
const PLAN: &[u8] = b"C\t2\t1\t2\nR\t1\t1\nR\t2\t1\nT\t1\t2\nS\t1\t1\t1\t1\nS\t1\t2\t2\t1\n\
B\t1\t1\nB\t2\t1\nA\t1\t1\t1\t1\nA\t2\t1\t1\t1\nA\t2\t1\t2\t1\nK\t1\t1\nK\t2\t2\n";

/// The same with a capacity that is too large.
const BAD_PLAN: &[u8] = b"C\t2\t1\t2\nR\t1\t256\n";

fn main() {
    let mut cell = [0; CELL_SIZE];
    read(&mut cell, BAD_PLAN);
    read(&mut cell, PLAN);
    let checked = rilthoss::check(&cell);
    println!("the upstream check: {}", checked.number());

    tell("load 7", rilthoss::load(&mut cell, 7, 1), &cell);
    tell("load 8", rilthoss::load(&mut cell, 8, 1), &cell);
    tell("advance 7", rilthoss::advance(&mut cell, 7), &cell);
    tell("load 8", rilthoss::load(&mut cell, 8, 1), &cell);
    tell("advance 7", rilthoss::advance(&mut cell, 7), &cell);
    tell("unload 7", rilthoss::unload(&mut cell, 7), &cell);
    tell("load 8", rilthoss::load(&mut cell, 8, 1), &cell);

    let drained = rilthoss::drain(&mut cell, 100);
    println!(
        "drain: {} after {} moves",
        drained.number(),
        drained.moves()
    );
}

fn read(cell: &mut [u8], text: &[u8]) {
    let answer = rilthoss::read_plan(cell, text);
    if answer.number() == number::OK {
        println!("the plan is accepted");
    } else {
        let line = String::from_utf8_lossy(&text[rilthoss::shown(text)]);
        println!(
            "refused, {}, line {}: {line}",
            answer.number(),
            answer.line()
        );
    }
}

fn tell(event: &str, answer: Answer, cell: &[u8]) {
    let said = match answer.number() {
        number::OK => "admitted".to_string(),
        number::OVER_CAPACITY => format!("resource {} would be exceeded", answer.place()),
        number::ROW_BROKEN => format!("row {} would be broken", answer.place()),
        other => format!("refused, {other}"),
    };
    println!("{event}: {said}; jobs active: {}", cell[offset::JOB_COUNT]);
}
