//! Steps on tables that no run reaches: unsound ones, and ones at or past a
//! limit. The cases are numbers in a text file that the product's program
//! `test_step_cases` reads, too; its output is compared with these lines.

mod changes;
mod free;
mod left;
mod list;
mod numbers;
mod row_messages;
mod row_rules;
pub(crate) mod rows;
mod saved;
mod state;
mod tables;

pub use row_rules::RowRules;
pub use tables::CaseTables;

use left::left;
use numbers::Numbers;
use rows::Row;

use crate::answer::Answer;
use crate::mistakes::Mistakes;
use crate::step_record::Step;

/// Returns a line `case answer value` for each step of each case, and below it,
/// indented by two spaces, the message delivered and what the step left.
pub fn lines(text: &str) -> String {
    lines_under(Mistakes::NONE, text)
}

/// Returns the same under other rules, to see what a mistake changes.
pub fn lines_under(rules: Mistakes, text: &str) -> String {
    let mut numbers = Numbers::of(text);
    let base = changed(&mut numbers, &CaseTables::fresh());
    let mut lines = String::new();
    while let Some(case) = numbers.next() {
        let mut tables = changed(&mut numbers, &base);
        for _ in 0..numbers.need() {
            let before = tables.clone();
            let answer = tables.take(rules, &read_step(&mut numbers));
            let (number, value) = answer.numbers();
            lines.push_str(&format!("{case} {number} {value}\n"));
            let below = delivered(&answer).into_iter().chain(left(&before, &tables));
            below.for_each(|line| lines.push_str(&format!("  {line}\n")));
        }
    }
    lines
}

/// Reads a count, then this many changes of three numbers each: field, place,
/// value.
fn changed(numbers: &mut Numbers, from: &CaseTables) -> CaseTables {
    let mut tables = from.clone();
    for _ in 0..numbers.need() {
        let (field, place, value) = (numbers.need(), numbers.need(), numbers.need());
        tables.change(field, place as usize, value);
    }
    tables
}

fn read_step(numbers: &mut Numbers) -> Step {
    Step {
        kind: numbers.need() as u8,
        client: numbers.need() as u8,
        object: numbers.need() as u8,
        place: numbers.need() as u8,
        clock: numbers.need() as u32,
        value: numbers.need(),
    }
}

fn delivered(answer: &Answer) -> Option<String> {
    match answer {
        Answer::Delivered { message, .. } => Some(format!("delivered: {}", Row::of(message))),
        _ => None,
    }
}
