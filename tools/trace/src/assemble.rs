//! Text to trace bytes.
//!
//! Assumes nothing of the text; the first line that can't be read is told, with what to do.

use crate::records::{Field, Form, Width, FORMS, KIND_SIZE, RAW_WORD, RECORD_WORD};

const RESOURCE_LIMIT: u32 = 16;

/// The bytes that the text describes, or a message that names its first faulty line.
pub fn assemble(text: &[u8]) -> Result<Vec<u8>, String> {
    let mut bytes = Vec::new();
    for (number, line) in (1..).zip(text.split(|&byte| byte == b'\n')) {
        let line_bytes = assemble_line(line);
        bytes.extend(line_bytes.map_err(|fault| format!("line {number}: {fault}"))?);
    }
    Ok(bytes)
}

fn assemble_line(line: &[u8]) -> Result<Vec<u8>, String> {
    let line = std::str::from_utf8(line)
        .map_err(|_| "not text; is this a trace already? `trace dis` reads those".to_string())?;
    let record = line.split('#').next().unwrap_or_default();
    let words: Vec<&str> = record.split_whitespace().collect();
    let Some((&word, operands)) = words.split_first() else {
        return Ok(Vec::new());
    };
    match (word, operands) {
        (RAW_WORD, []) => Err("`raw` without bytes; write `raw HEX..`, such as `raw 07 00`".into()),
        (RAW_WORD, operands) => hexadecimal(operands),
        (RECORD_WORD, []) => Err("`record` without a kind; write `record KIND HEX..`".into()),
        (RECORD_WORD, [kind, body @ ..]) => {
            let kind = number(kind, "KIND", u16::MAX.into())? as u16;
            framed(kind, &hexadecimal(body)?)
        }
        (word, operands) => {
            let form = Form::of_word(word).ok_or_else(|| unknown_word(word))?;
            framed(form.kind, &body(form, operands)?)
        }
    }
}

fn unknown_word(word: &str) -> String {
    let words: Vec<&str> = FORMS.iter().map(|form| form.word).collect();
    let words = words.join(", ");
    format!("`{word}` is no record; write one of {words}, {RECORD_WORD}, {RAW_WORD}")
}

/// A record's bytes: the length of what follows, the kind, the body.
fn framed(kind: u16, body: &[u8]) -> Result<Vec<u8>, String> {
    let length = u16::try_from(KIND_SIZE + body.len()).map_err(|_| {
        let most = usize::from(u16::MAX) - KIND_SIZE;
        format!(
            "a body of {} bytes; a record holds at most {most}",
            body.len()
        )
    })?;
    let mut bytes = length.to_le_bytes().to_vec();
    bytes.extend(kind.to_le_bytes());
    bytes.extend(body);
    Ok(bytes)
}

fn body(form: &Form, operands: &[&str]) -> Result<Vec<u8>, String> {
    let mut bytes = Vec::new();
    let mut left = operands;
    for field in form.fields {
        let Some((&operand, after)) = left.split_first() else {
            return Err(format!(
                "{} is missing; write `{}`",
                field.name,
                form.usage()
            ));
        };
        if field.width == Width::Set {
            bytes.extend(set(left)?.to_le_bytes());
            left = &[];
        } else {
            bytes.extend(field_bytes(field, operand)?);
            left = after;
        }
    }
    match left {
        [] => Ok(bytes),
        [extra, ..] => Err(format!("`{extra}` is too much; write `{}`", form.usage())),
    }
}

fn field_bytes(field: &Field, operand: &str) -> Result<Vec<u8>, String> {
    let largest = match field.width {
        Width::FourBytes => u32::MAX,
        Width::TwoBytes | Width::Set => u16::MAX.into(),
    };
    let value = number(operand, field.name, largest)?;
    Ok(value.to_le_bytes()[..field.width.size()].to_vec())
}

/// A decimal number, or a hexadecimal one after `0x`.
fn number(word: &str, name: &str, largest: u32) -> Result<u32, String> {
    let parsed = match word.strip_prefix("0x") {
        Some(digits) => u64::from_str_radix(digits, 16),
        None => word.parse::<u64>(),
    };
    let fault = || format!("{name} is `{word}`; write a number from 0 to {largest}");
    let value = parsed.map_err(|_| fault())?;
    let value = u32::try_from(value).map_err(|_| fault())?;
    (value <= largest).then_some(value).ok_or_else(fault)
}

/// A declared set: `0x0005`, or the resources `0,2` with commas or spaces, or `none`.
fn set(words: &[&str]) -> Result<u16, String> {
    match words {
        ["none"] => Ok(0),
        [bits] if bits.starts_with("0x") => Ok(number(bits, "SET", u16::MAX.into())? as u16),
        list => {
            let mut bits = 0;
            let resources = list.iter().flat_map(|word| word.split(','));
            for resource in resources.filter(|word| !word.is_empty()) {
                bits |= 1 << number(resource, "a resource of SET", RESOURCE_LIMIT - 1)?;
            }
            Ok(bits)
        }
    }
}

/// Bytes as pairs of hexadecimal digits, apart or run together.
fn hexadecimal(words: &[&str]) -> Result<Vec<u8>, String> {
    let mut bytes = Vec::new();
    for word in words {
        let digits: Option<Vec<u8>> = word.chars().map(digit).collect();
        let pairs = digits.filter(|digits| digits.len().is_multiple_of(2));
        let Some(pairs) = pairs else {
            return Err(format!(
                "`{word}` are no bytes; write two hexadecimal digits for each byte"
            ));
        };
        bytes.extend(pairs.chunks(2).map(|pair| pair[0] << 4 | pair[1]));
    }
    Ok(bytes)
}

fn digit(letter: char) -> Option<u8> {
    letter.to_digit(16).map(|digit| digit as u8)
}
