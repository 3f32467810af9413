//! The text form that program `bounds` reads: a table of critical sections, then questions.
//!
//! ```text
//! tasks 3              # how many tasks
//! section 0 1 5 -      # task, resource, length, parent ("-" for none); numbered from 0
//! section 1 0 9 -
//! section 1 1 4 1
//! bound 0 1000         # task, allowance
//! ```
//!
//! Assumes nothing of the text. The rules have no text form for tables; this one is this program's own.

use crate::bound::{bound, Section, SectionTable};
use crate::state::{ResourceNumber, TaskNumber};

const FORMS: &str = "write `tasks N`, `section TASK RESOURCE LENGTH PARENT` or \
                     `bound TASK ALLOWANCE`";

/// Answers each `bound` line with a line, or tells the first line that can't be read.
pub fn answer_questions(text: &str) -> Result<String, String> {
    let mut table = SectionTable::default();
    let mut answers = String::new();
    for (number, line) in (1..).zip(text.lines()) {
        let words: Vec<&str> = line
            .split('#')
            .next()
            .unwrap_or_default()
            .split_whitespace()
            .collect();
        let answer = read_line(&mut table, &words)
            .map_err(|fault| format!("line {number}: {fault}; {FORMS}"))?;
        answers.extend(answer);
    }
    Ok(answers)
}

/// Takes one line into the table, or answers its question.
fn read_line(table: &mut SectionTable, words: &[&str]) -> Result<Option<String>, String> {
    match words {
        [] => Ok(None),
        ["tasks", count] => {
            table.tasks = number(count)?;
            Ok(None)
        }
        ["section", task, resource, length, parent] => {
            table.sections.push(Section {
                task: TaskNumber(number(task)?),
                resource: ResourceNumber(number(resource)?),
                length: number(length)?,
                parent: match *parent {
                    "-" => None,
                    parent => Some(number(parent)?),
                },
            });
            Ok(None)
        }
        ["bound", task, allowance] => {
            let task = TaskNumber(number(task)?);
            let answer = bound(table, task, number(allowance)?);
            Ok(Some(match answer {
                Ok(bound) => format!(
                    "task {} bound {} weighings {}\n",
                    task.0, bound.ticks, bound.weighings
                ),
                Err(refusal) => format!("task {} refused {}\n", task.0, refusal.number()),
            }))
        }
        _ => Err(format!("can't read `{}`", words.join(" "))),
    }
}

fn number<N: std::str::FromStr>(word: &str) -> Result<N, String> {
    word.parse()
        .map_err(|_| format!("`{word}` is no number, or too large"))
}
