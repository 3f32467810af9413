//! Tests of `timeline` on the stored examples and on seeded traces of the second program.
//!
//! Assumes the static library that VESZTAMOR_LIBRARY names, as the program does. What is drawn is
//! held to the listing once more by `tests/pictures`, which reads the written files.

mod drawing;
mod program;
mod reading;

use second::generate::damage::damaged_trace;
use second::generate::random::Random;
use second::generate::runs::Run;
use std::fs;
use std::path::{Path, PathBuf};

fn tree() -> PathBuf {
    Path::new(env!("CARGO_MANIFEST_DIR")).join("../..")
}

/// The stored examples, faulty ones too, as traces.
fn examples() -> Vec<(String, Vec<u8>)> {
    let folders = ["examples", "examples/refusals", "tools/trace/examples"];
    let files = folders
        .iter()
        .flat_map(|folder| fs::read_dir(tree().join(folder)).unwrap());
    let texts = files
        .map(|file| file.unwrap().path())
        .filter(|path| path.extension().is_some_and(|e| e == "txt"));
    let found: Vec<(String, Vec<u8>)> = texts
        .map(|path| {
            let trace = trace::assemble::assemble(&fs::read(&path).unwrap()).unwrap();
            (path.display().to_string(), trace)
        })
        .collect();
    assert!(found.len() > 20);
    found
}

/// Seeded traces, and the same with damage.
fn seeded(count: u64) -> impl Iterator<Item = (String, Vec<u8>)> {
    (1..=count).flat_map(|seed| {
        let run = Run::any(seed, 120);
        let damaged = damaged_trace(&mut Random::new(seed), &run);
        [
            (format!("seed {seed}"), run.trace()),
            (format!("seed {seed} damaged"), damaged),
        ]
    })
}

fn all(count: u64) -> impl Iterator<Item = (String, Vec<u8>)> {
    examples().into_iter().chain(seeded(count))
}
