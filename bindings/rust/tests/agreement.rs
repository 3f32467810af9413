//! The C header, the wrapper, docs/REFUSALS.md and the proved source have the same numbers. The files are read as text, from this folder upwards.
use std::collections::BTreeMap;
use std::fs;
use std::path::{Path, PathBuf};
use vesztamor::Answer;

type Numbers = BTreeMap<String, u64>;

fn tree() -> PathBuf {
    Path::new(env!("CARGO_MANIFEST_DIR")).join("../..")
}

fn text(path: &str) -> String {
    fs::read_to_string(tree().join(path)).unwrap_or_else(|e| panic!("{path}: {e}"))
}

/// The value of a sum of products of numbers and of names that were defined before.
fn value(expression: &str, known: &Numbers) -> u64 {
    let factor = |word: &str| word.trim().parse().unwrap_or_else(|_| known[word.trim()]);
    expression
        .split('+')
        .map(|product| product.split('*').map(factor).product::<u64>())
        .sum()
}

/// The constants of a source file, in its order: `const NAME: TYPE = EXPRESSION;`.
fn constants(path: &str) -> Numbers {
    let mut known = Numbers::new();
    for line in text(path).lines() {
        let Some((_, rest)) = line.split_once("const ") else {
            continue;
        };
        let (name, rest) = rest.split_once(':').expect("a constant has a type");
        let (_, expression) = rest.split_once('=').expect("a constant has a value");
        let number = value(expression.trim_end().trim_end_matches(';'), &known);
        known.insert(name.to_string(), number);
    }
    known
}

/// The members of one of the header's enums, without the library's prefix.
fn members(name: &str) -> Numbers {
    let header = text("bindings/vesztamor.h");
    let (_, rest) = header
        .split_once(&format!("enum {name} {{"))
        .expect("the header has the enum");
    let (body, _) = rest.split_once("};").expect("an enum ends");
    body.split(',')
        .map(|member| {
            let (name, number) = member.split_once('=').expect("a member has its number");
            let name = name
                .trim()
                .strip_prefix("VESZTAMOR_")
                .expect("a member has the library's prefix");
            (name.to_string(), number.trim().parse().expect("a number"))
        })
        .collect()
}

/// The number that the header defines under a name.
fn defined(name: &str) -> u64 {
    let header = text("bindings/vesztamor.h");
    let line = header
        .lines()
        .find(|line| line.starts_with(&format!("#define {name} ")))
        .expect("the header defines it");
    line.rsplit(' ').next().unwrap().parse().expect("a number")
}

/// docs/REFUSALS.md: the names, in capitals, with their numbers.
fn refusals() -> Numbers {
    let mut rows = Numbers::new();
    for line in text("docs/REFUSALS.md").lines() {
        let cells: Vec<&str> = line.split('|').map(str::trim).collect();
        if let [_, number, name, ..] = cells[..] {
            if let Ok(number) = number.parse() {
                assert!(
                    rows.insert(name.to_uppercase(), number).is_none(),
                    "{name} stands twice in docs/REFUSALS.md"
                );
            }
        }
    }
    rows
}

#[test]
fn sizes_are_those_of_the_source() {
    assert_eq!(
        constants("crates/image/src/sizes.rt")["IMAGE_SIZE"],
        vesztamor::STATE_BYTES as u64
    );
    assert_eq!(
        defined("VESZTAMOR_STATE_BYTES"),
        vesztamor::STATE_BYTES as u64
    );
    assert_eq!(
        defined("VESZTAMOR_BOUND_BYTES"),
        vesztamor::BOUND_BYTES as u64
    );
    assert!(text("crates/vesztamor/specs/Exported.antt")
        .contains(&format!("bound_size = {}\n", vesztamor::BOUND_BYTES)));
    assert_eq!(
        constants("crates/vesztamor/src/metering.rt")["METER_ROW_SIZE"],
        vesztamor::ROW_BYTES as u64
    );
    assert_eq!(defined("VESZTAMOR_ROW_BYTES"), vesztamor::ROW_BYTES as u64);
}

#[test]
fn room_for_a_text_is_that_of_the_source() {
    let (each, more) = (
        vesztamor::text_bytes(1) - vesztamor::text_bytes(0),
        vesztamor::text_bytes(0),
    );
    let source = text("crates/listing/specs/Replay.antt");
    assert!(source.contains("room n = room_each * n + room_more\n"));
    assert!(source.contains(&format!("room_each = {each}\n")));
    assert!(source.contains(&format!("room_more = {more}\n")));
    assert!(text("bindings/vesztamor.h").contains(&format!(
        "VESZTAMOR_TEXT_BYTES(trace) ({each} * (size_t)(trace) + {more})\n"
    )));
}

#[test]
fn the_layout_is_that_of_the_source_and_of_the_library() {
    assert_eq!(
        constants("crates/vesztamor/src/layouts.rt")["LAYOUT"],
        vesztamor::LAYOUT
    );
    assert_eq!(defined("VESZTAMOR_LAYOUT"), vesztamor::LAYOUT);
    assert_eq!(vesztamor::layout(), vesztamor::LAYOUT);
}

#[test]
fn words_are_those_of_the_source() {
    let mut source = constants("crates/vesztamor/src/answers.rt");
    assert_eq!(source.remove("WORD"), Some(1 << 56));
    let further = source.remove("FURTHER").expect("what follows has a place");
    let waiting = source.remove("WAITING").expect("62 has a name");
    let unfit = source
        .remove("UNFIT")
        .expect("memory of another length has an answer");
    let words = members("vesztamor_word");
    assert_eq!(words.len(), source.len() + 1);
    assert_eq!(words["OK"], 0);
    for (word, packed) in &source {
        assert_eq!(words[word] << 56, *packed, "{word}");
        assert_eq!(
            format!("{:?}", Answer::of(packed + 5)).to_uppercase(),
            format!("{word}(5)")
        );
    }
    assert_eq!(waiting, members("vesztamor_refusal")["WAITING"]);
    let wrong_length = members("vesztamor_refusal")["WRONG_LENGTH"];
    assert_eq!(unfit, source["REFUSED"] + wrong_length);
    let refused = source["REFUSED"] + waiting;
    assert_eq!(Answer::of(refused), Answer::Refused(waiting as u32));
    for resource in [0, 5, 65535] {
        assert_eq!(
            Answer::of(refused + (u64::from(resource) + 1) * further),
            Answer::RefusedWaiting(resource)
        );
    }
}

#[test]
fn phases_are_those_of_the_source() {
    let phases = members("vesztamor_phase");
    let mut seen = 0;
    // the equations of the definition, which the function that writes a phase is proved to meet
    for line in text("crates/image/specs/Encoded.antt").lines() {
        let Some((phase, number)) = line
            .strip_prefix("phase_tag ")
            .and_then(|rest| rest.split_once(" = "))
        else {
            continue;
        };
        let number: u64 = number.parse().expect("a phase has its number");
        seen += 1;
        assert_eq!(phases[&phase.to_uppercase()], number, "{phase}");
        let mut row = [0; vesztamor::ROW_BYTES];
        row[0] = number as u8;
        assert_eq!(format!("{:?}", vesztamor::Row::of(&row).phase), phase);
    }
    assert_eq!(seen, phases.len());
}

#[test]
fn kinds_are_those_of_the_source() {
    let kinds = members("vesztamor_kind");
    let mut seen = 0;
    for line in text("crates/trace/src/kinds.rt").lines() {
        let Some((key, event)) = line.trim().split_once(" => Event::") else {
            continue;
        };
        let name = event.split('(').next().unwrap().to_uppercase();
        seen += 1;
        // the last arm takes what is left of the known kinds, 1 to 8
        assert_eq!(kinds[&name], key.parse().unwrap_or(8), "{name}");
    }
    assert_eq!(seen, kinds.len());
}

#[test]
fn refusals_of_the_header_are_those_of_the_table() {
    let mut header = members("vesztamor_refusal");
    assert_eq!(header.remove("WRONG_LENGTH"), Some(0));
    assert_eq!(header, refusals());
}

/// The refusals of a source file that it turns into numbers, in capitals: `Refusal::NoSuchTask => 2,`.
fn numbered(source: &str) -> Numbers {
    let arm = |line: &str| {
        let (name, number) = line.trim().strip_prefix("Refusal::")?.split_once(" => ")?;
        Some((capitals(name), number.strip_suffix(',')?.parse().ok()?))
    };
    source.lines().filter_map(arm).collect()
}

/// `NO_SUCH_TASK` of `NoSuchTask`.
fn capitals(name: &str) -> String {
    let mut words = String::new();
    for (i, letter) in name.char_indices() {
        if i > 0 && letter.is_uppercase() {
            words.push('_');
        }
        words.push(letter.to_ascii_uppercase());
    }
    words
}

/// Every number that a source file writes as a refusal or a stop, in place of a name.
fn told(source: &str) -> Vec<u64> {
    let mut numbers = Vec::new();
    for word in ["Refused(", "refusal(", "refused(", "put_stop("] {
        for rest in source.split(word).skip(1) {
            let arguments = rest.split(')').next().unwrap();
            numbers.extend(arguments.rsplit(',').next().unwrap().trim().parse::<u64>());
        }
    }
    numbers
}

#[test]
fn refusals_of_the_source_stand_in_the_table() {
    assert_eq!(numbered(&text("crates/model/src/refusals.rt")), refusals());
    for folder in fs::read_dir(tree().join("crates")).unwrap() {
        let Ok(files) = fs::read_dir(folder.unwrap().path().join("src")) else {
            continue;
        };
        for file in files {
            let path = file.unwrap().path();
            let numbers = told(&fs::read_to_string(&path).unwrap());
            assert!(
                numbers.iter().all(|&number| number == 0),
                "{}: {numbers:?} have names in model::Refusal",
                path.display()
            );
        }
    }
}
