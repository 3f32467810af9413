//! Trace bytes to text that gives back the same bytes.
//!
//! Assumes nothing of the bytes.

use crate::records::{Form, Width, KIND_SIZE, LENGTH_SIZE, RAW_WORD, RECORD_WORD};

const RAW_BYTES_PER_LINE: usize = 16;
/// Where the comment with the offset starts, if the line isn't longer.
const OFFSET_COLUMN: usize = 32;

/// One line for each record; from where no whole record can be read, the rest as raw bytes.
pub fn disassemble(bytes: &[u8], offsets: bool) -> String {
    let mut text = String::new();
    let mut add = |offset: usize, line: String| {
        if offsets {
            text.push_str(&format!("{line:<OFFSET_COLUMN$} # at {offset}\n"));
        } else {
            text.push_str(&format!("{line}\n"));
        }
    };
    let mut offset = 0;
    while let Some((kind, body)) = whole_record(&bytes[offset..]) {
        add(offset, record_line(kind, body));
        offset += LENGTH_SIZE + KIND_SIZE + body.len();
    }
    for raw in bytes[offset..].chunks(RAW_BYTES_PER_LINE) {
        add(offset, format!("{RAW_WORD}{}", hexadecimal(raw)));
        offset += raw.len();
    }
    text
}

/// The kind and body of the record that stands first, if it is whole.
fn whole_record(bytes: &[u8]) -> Option<(u16, &[u8])> {
    let (length, rest) = bytes.split_first_chunk::<LENGTH_SIZE>()?;
    let contents = rest.get(..u16::from_le_bytes(*length).into())?;
    let (kind, body) = contents.split_first_chunk::<KIND_SIZE>()?;
    Some((u16::from_le_bytes(*kind), body))
}

fn record_line(kind: u16, body: &[u8]) -> String {
    match Form::of_kind(kind).filter(|form| form.body_size() == body.len()) {
        Some(form) => form_line(form, body),
        None => format!("{RECORD_WORD} {kind}{}", hexadecimal(body)),
    }
}

fn form_line(form: &Form, body: &[u8]) -> String {
    let mut line = form.word.to_string();
    let mut rest = body;
    for field in form.fields {
        let (bytes, after) = rest.split_at(field.width.size());
        let value = little_endian(bytes);
        line.push_str(&match field.width {
            Width::TwoBytes | Width::FourBytes => format!(" {value}"),
            Width::Set => format!(" 0x{value:04x}"),
        });
        rest = after;
    }
    line
}

fn little_endian(bytes: &[u8]) -> u32 {
    let highest_first = bytes.iter().rev();
    highest_first.fold(0, |value, &byte| value << 8 | u32::from(byte))
}

/// Two digits for each byte, with a space before each.
fn hexadecimal(bytes: &[u8]) -> String {
    bytes.iter().map(|byte| format!(" {byte:02x}")).collect()
}
