//! The worked rows that are scripts, on a flow of one thread and on a lane. Where the two differ by plan, a lane lets
//! waiting emissions in by a scan.

mod flows;
mod rows;
mod script;

use flows::{Core, Flow, Lane};
use rows::{Row, FLOWS, PRELUDES, STATES};
use script::Script;

fn assert_answers<F: Flow>(row: &Row) {
    let mut script = Script::<F>::new();
    let answers: Vec<String> = row
        .script
        .split(" ; ")
        .map(|command| script.answer(command))
        .collect();
    assert_eq!(answers.join(" ; "), row.answers, "{}", row.name);
}

#[test]
fn flows_on_one_thread() {
    FLOWS
        .iter()
        .chain(PRELUDES)
        .for_each(assert_answers::<Core>);
}

#[test]
fn lanes() {
    FLOWS.iter().for_each(assert_answers::<Lane>);
}

#[test]
fn states() {
    STATES.iter().for_each(assert_answers::<Core>);
}
