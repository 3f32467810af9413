//! The kinds of record a trace has (rules 13.2 and 13.3), with their words and fields.
//!
//! Assumes nothing. Both directions go by this table, so that they can't disagree.

/// How a field is written in bytes, little-endian, and in text.
#[derive(Clone, Copy, Debug, PartialEq, Eq)]
pub enum Width {
    TwoBytes,
    FourBytes,
    /// Two bytes with a bit for each resource.
    Set,
}

impl Width {
    pub fn size(self) -> usize {
        match self {
            Width::TwoBytes | Width::Set => 2,
            Width::FourBytes => 4,
        }
    }
}

#[derive(Clone, Copy, Debug)]
pub struct Field {
    /// As it is named in messages.
    pub name: &'static str,
    pub width: Width,
}

#[derive(Clone, Copy, Debug)]
pub struct Form {
    pub word: &'static str,
    pub kind: u16,
    pub fields: &'static [Field],
}

const fn two(name: &'static str) -> Field {
    let width = Width::TwoBytes;
    Field { name, width }
}

const fn four(name: &'static str) -> Field {
    let width = Width::FourBytes;
    Field { name, width }
}

const fn set(name: &'static str) -> Field {
    let width = Width::Set;
    Field { name, width }
}

const fn form(word: &'static str, kind: u16, fields: &'static [Field]) -> Form {
    Form { word, kind, fields }
}

pub const FORMS: [Form; 10] = [
    form(
        "machine",
        16,
        &[two("PROCESSORS"), two("TASKS"), two("RESOURCES")],
    ),
    form("task", 17, &[four("Q"), four("P"), set("SET")]),
    form("wake", 1, &[two("TASK")]),
    form("suspend", 2, &[two("TASK")]),
    form("dispatch", 3, &[two("SERVER")]),
    form("preempt", 4, &[two("SERVER")]),
    form("elapse", 5, &[four("TICKS")]),
    form("recharge", 6, &[two("SERVER")]),
    form("lock", 7, &[two("TASK"), two("RESOURCE")]),
    form("unlock", 8, &[two("TASK"), two("RESOURCE")]),
];

/// The size of a record's length field, and of its kind.
pub const LENGTH_SIZE: usize = 2;
pub const KIND_SIZE: usize = 2;
/// The words for what has no form of its own.
pub const RECORD_WORD: &str = "record";
pub const RAW_WORD: &str = "raw";

impl Form {
    pub fn of_word(word: &str) -> Option<&'static Form> {
        FORMS.iter().find(|form| form.word == word)
    }

    pub fn of_kind(kind: u16) -> Option<&'static Form> {
        FORMS.iter().find(|form| form.kind == kind)
    }

    pub fn body_size(&self) -> usize {
        self.fields.iter().map(|field| field.width.size()).sum()
    }

    /// The line that it asks for, such as `lock TASK RESOURCE`.
    pub fn usage(&self) -> String {
        let names: Vec<&str> = self.fields.iter().map(|field| field.name).collect();
        format!("{} {}", self.word, names.join(" "))
    }
}
