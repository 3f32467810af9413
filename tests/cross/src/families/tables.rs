//! Tables for `fresh`, and section tables with their questions.
//!
//! Assumes nothing.

use crate::case::Case;
use second::generate::coverage::Coverage;
use second::generate::random::Random;
use second::generate::sections::{bad_question, good_question, tight_questions, Question};
use second::generate::tables::{any_counts, bad_table, good_table, Pace};
use second::image::STATE_BYTES;
use second::library::{section_bytes, table_bytes};
use second::refusal::Refusal;
use second::state::fresh;

/// All refusals of a bound but 46, which tight allowances reach.
const BOUND_REFUSALS: [Refusal; 6] = [
    Refusal::SectionCountsOutOfRange,
    Refusal::SectionOutOfRange,
    Refusal::ResourceNotAboveParent,
    Refusal::ChildrenTooLong,
    Refusal::NoSuchTaskInTable,
    Refusal::AllowanceOutOfRange,
];

/// Good tables and each refusal in turn; now and then memory or tables of the wrong length.
pub fn fresh_tables(random: &mut Random, number: u64, coverage: &mut Coverage) -> Vec<Case> {
    let table = match number % 5 {
        0 => bad_table(random, Refusal::CountsOutOfRange),
        1 => bad_table(random, Refusal::QuotaOrPeriodOutOfRange),
        2 => bad_table(random, Refusal::DeclaredResourceAbsent),
        _ => {
            let counts = any_counts(random);
            let pace = Pace::any(random);
            let open = random.one_in(2);
            good_table(random, counts, pace, open)
        }
    };
    let mut bytes = table_bytes(&table);
    let mut room = STATE_BYTES;
    if random.one_in(10) {
        room = wrong_length(random, STATE_BYTES);
        coverage.note("fresh refused 0".to_string());
    } else if random.one_in(10) {
        bytes.resize(wrong_length(random, bytes.len()), 0);
        coverage.note("fresh refused 19 for its length".to_string());
    } else {
        match fresh(&table).1 {
            Ok(()) => coverage.note("fresh ok".to_string()),
            Err(refusal) => coverage.note_refusal("fresh", refusal),
        }
    }
    vec![Case::Fresh { table: bytes, room }]
}

/// A length near the right one, or none at all.
fn wrong_length(random: &mut Random, right: usize) -> usize {
    match random.index(4) {
        0 => 0,
        1 => right - 1,
        2 => right + 1,
        _ => random.index(right),
    }
}

/// By turns a good table with allowances around what it spends, and a table for each refusal.
pub fn section_tables(random: &mut Random, number: u64, coverage: &mut Coverage) -> Vec<Case> {
    let questions = if number.is_multiple_of(2) {
        let good = good_question(random);
        let mut questions = tight_questions(&good);
        questions.push(good);
        questions
    } else {
        let turn = (number / 2) as usize % BOUND_REFUSALS.len();
        vec![bad_question(random, BOUND_REFUSALS[turn])]
    };
    let mut cases = Vec::new();
    for question in questions {
        match question.answer() {
            Ok(bound) => {
                let digits = bound.weighings.checked_ilog10().map_or(0, |tens| tens + 1);
                coverage.note(format!("bound with weighings of {digits} digits"));
                coverage.note("bound ok".to_string());
            }
            Err(refusal) => coverage.note_refusal("bound", refusal),
        }
        cases.push(bound_case(&question, section_bytes(&question.table)));
        if random.one_in(20) {
            let mut bytes = section_bytes(&question.table);
            bytes.resize(wrong_length(random, bytes.len()), 0);
            coverage.note("bound refused 40 for its length".to_string());
            cases.push(bound_case(&question, bytes));
        }
    }
    cases
}

fn bound_case(question: &Question, sections: Vec<u8>) -> Case {
    Case::Bound {
        sections,
        task: question.task.0,
        allowance: question.allowance,
    }
}
