//! Names for tasks and resources, from a text file with lines `task NUMBER NAME` and
//! `resource NUMBER NAME`.
//!
//! Assumes nothing of the text; the first line that can't be read is told, with what to write.

use std::collections::BTreeMap;

#[derive(Clone, Debug, Default, PartialEq, Eq)]
pub struct Names {
    tasks: BTreeMap<u16, String>,
    resources: BTreeMap<u16, String>,
}

impl Names {
    /// The names of a text: one a line, `#` for comments, empty lines skipped.
    pub fn of(text: &str) -> Result<Names, String> {
        let mut names = Names::default();
        for (number, line) in (1..).zip(text.lines()) {
            let line = line.split('#').next().unwrap_or_default().trim();
            if !line.is_empty() {
                names
                    .take(line)
                    .map_err(|fault| format!("line {number}: {fault}"))?;
            }
        }
        Ok(names)
    }

    fn take(&mut self, line: &str) -> Result<(), String> {
        const USAGE: &str = "write `task NUMBER NAME` or `resource NUMBER NAME`";
        let words: Vec<&str> = line.split_whitespace().collect();
        let [kind, number, name @ ..] = &words[..] else {
            return Err(format!("`{line}` has no number; {USAGE}"));
        };
        let named = match *kind {
            "task" => &mut self.tasks,
            "resource" => &mut self.resources,
            _ => return Err(format!("`{kind}` has no names; {USAGE}")),
        };
        let number = number
            .parse()
            .map_err(|_| format!("`{number}` is no number; {USAGE}"))?;
        if name.is_empty() {
            return Err(format!("a name is missing; {USAGE}"));
        }
        match named.insert(number, name.join(" ")) {
            Some(_) => Err(format!("{kind} {number} has a name already")),
            None => Ok(()),
        }
    }

    pub fn task_name(&self, number: u16) -> Option<&str> {
        self.tasks.get(&number).map(String::as_str)
    }

    pub fn resource_name(&self, number: u16) -> Option<&str> {
        self.resources.get(&number).map(String::as_str)
    }

    /// A task's name, or its sign.
    pub fn task(&self, number: u16) -> String {
        self.task_name(number)
            .map_or(format!("T{number}"), str::to_string)
    }

    pub fn resource(&self, number: u16) -> String {
        self.resource_name(number)
            .map_or(format!("R{number}"), str::to_string)
    }

    /// A server's sign, with the name of its own task.
    pub fn server(&self, number: u16) -> String {
        let name = self.task_name(number).map(|name| format!(" {name}"));
        format!("S{number}{}", name.unwrap_or_default())
    }
}

#[cfg(test)]
mod tests {
    use super::Names;

    #[test]
    fn names_and_signs() {
        let names = Names::of("# who\n\ntask 0 dose  meter # it\nresource 3 map\n").unwrap();
        assert_eq!(names.task(0), "dose meter");
        assert_eq!(names.task(3), "T3");
        assert_eq!(names.server(0), "S0 dose meter");
        assert_eq!(names.server(1), "S1");
        assert_eq!(names.resource(3), "map");
        assert_eq!(names.resource(0), "R0");
    }

    #[test]
    fn a_faulty_line_is_told() {
        let faults = [
            (
                "task",
                "line 1: `task` has no number; write `task NUMBER NAME`",
            ),
            ("\nserver 0 a", "line 2: `server` has no names; write"),
            ("task x a", "line 1: `x` is no number; write"),
            ("task 65536 a", "line 1: `65536` is no number; write"),
            ("resource 1", "line 1: a name is missing; write"),
            ("task 1 a\ntask 1 b", "line 2: task 1 has a name already"),
        ];
        for (text, expected) in faults {
            let fault = Names::of(text).unwrap_err();
            assert!(fault.starts_with(expected), "{fault}");
        }
    }
}
