//! The fields of a state's bytes by name (docs/STATE.md), for showing differences and for changing
//! one field at a time.
//!
//! Assumes bytes of a state's length.

use second::image::STATE_BYTES;
use second::state::{RESOURCE_LIMIT, TASK_LIMIT};
use std::sync::OnceLock;

#[derive(Clone, Debug, PartialEq, Eq)]
pub struct Field {
    pub name: String,
    at: usize,
    width: usize,
}

impl Field {
    pub fn value(&self, state: &[u8]) -> u32 {
        let bytes = &state[self.at..self.at + self.width];
        let highest_first = bytes.iter().rev();
        highest_first.fold(0, |value, &byte| value << 8 | u32::from(byte))
    }

    /// Sets the field; of a value that is too large the lower bytes are taken.
    pub fn set(&self, state: &mut [u8], value: u32) {
        let bytes = &value.to_le_bytes()[..self.width];
        state[self.at..self.at + self.width].copy_from_slice(bytes);
    }
}

const HEADER: [(&str, usize); 4] = [
    ("processors", 2),
    ("tasks", 2),
    ("resources", 2),
    ("clock", 4),
];
const SERVER: [(&str, usize); 8] = [
    ("phase", 1),
    ("budget", 4),
    ("deadline", 4),
    ("quota", 4),
    ("period", 4),
    ("own", 4),
    ("lent", 4),
    ("spin", 4),
];
const TASK: [(&str, usize); 7] = [
    ("mode", 1),
    ("awaited", 2),
    ("runs", 1),
    ("executor", 2),
    ("declared", 2),
    ("depth", 2),
    ("executed", 4),
];
const RESOURCE: [(&str, usize); 3] = [("owned", 1), ("owner", 2), ("waiting", 2)];

/// All fields in the order of their bytes.
pub fn fields() -> &'static [Field] {
    static FIELDS: OnceLock<Vec<Field>> = OnceLock::new();
    FIELDS.get_or_init(|| {
        let mut list = List::default();
        list.add_each("", &HEADER);
        for server in 0..TASK_LIMIT {
            list.add_each(&format!("server {server} "), &SERVER);
        }
        for task in 0..TASK_LIMIT {
            list.add_each(&format!("task {task} "), &TASK);
            list.add_places(&format!("task {task} held"), RESOURCE_LIMIT);
        }
        for resource in 0..RESOURCE_LIMIT {
            list.add_each(&format!("resource {resource} "), &RESOURCE);
            list.add_places(&format!("resource {resource} queue"), TASK_LIMIT);
        }
        assert_eq!(list.end, STATE_BYTES, "the fields fill a state's bytes");
        list.fields
    })
}

#[derive(Default)]
struct List {
    fields: Vec<Field>,
    end: usize,
}

impl List {
    fn add(&mut self, name: String, width: usize) {
        let at = self.end;
        self.fields.push(Field { name, at, width });
        self.end += width;
    }

    fn add_each(&mut self, whose: &str, fields: &[(&str, usize)]) {
        for (name, width) in fields {
            self.add(format!("{whose}{name}"), *width);
        }
    }

    fn add_places(&mut self, name: &str, count: usize) {
        for place in 0..count {
            self.add(format!("{name}[{place}]"), 2);
        }
    }
}
