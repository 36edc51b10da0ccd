//! The bytes of the cases that specs/ works out by computing the definitions, against those that the Rust writes.

use crate::bars::{bars, term};
use crate::compare::{found, opened, Runner};
use crate::given::Given;
use crate::show::hex;
use std::path::Path;

fn uneven() -> Given {
    Given { documents: vec![(2, 5), (9, 300), (70000, 4096)], terms: vec![term("hat", &[(9, &[0, 128, 299])])] }
}

fn spread() -> Given {
    Given {
        documents: uneven().documents,
        terms: vec![term("a", &[(2, &[4]), (70000, &[0, 5, 4095])]), term("b", &[(9, &[7])])],
    }
}

fn same_step() -> Given {
    Given { documents: vec![(0, 4), (1, 4)], terms: vec![term("a", &[(0, &[2]), (1, &[2])]), term("b", &[(0, &[2]), (1, &[3])])] }
}

fn high() -> Given {
    Given {
        documents: vec![(4294967295, 4294967295)],
        terms: vec![term("a", &[(4294967295, &[4294967290])]), term("b", &[(4294967295, &[4294967294])])],
    }
}

fn cases() -> [(&'static str, Given); 5] {
    [
        ("segment-of-two", bars()),
        ("segment-of-uneven", uneven()),
        ("segment-of-spread", spread()),
        ("segment-of-same-step", same_step()),
        ("segment-of-high", high()),
    ]
}

const FILE: &str = "crates/cases/specs/Segments.antt";

fn written(given: &Given) -> String {
    found(&given.flat().case(), &opened(&[])).map_or_else(|refused| format!("{refused:?}"), |answer| hex(&answer.bytes))
}

/// The bytes of a definition `NAME = 0x.. ∷ 0x.. ∷ .. ∷ []`.
fn defined(file: &str, name: &str) -> Option<String> {
    let (_, rest) = file.split_once(&format!("\n{name} ="))?;
    let (bytes, _) = rest.split_once("[]")?;
    Some(bytes.split_whitespace().filter_map(|word| word.strip_prefix("0x")).collect::<String>().to_lowercase())
}

pub fn all(runner: &mut Runner, home: &Path) {
    let text = std::fs::read_to_string(home.join(FILE)).unwrap_or_default();
    for (name, given) in cases() {
        match defined(&text, name) {
            Some(bytes) if bytes == written(&given) => println!("{name} in {FILE}: as the Rust writes it"),
            Some(bytes) => runner.stray(format!("{name} in {FILE} has {bytes}, the Rust writes {}", written(&given))),
            None => runner.stray(format!("no {name} in {FILE}")),
        }
    }
}

/// The bytes that the Rust writes for the uneven case.
pub fn print_uneven() {
    println!("{}", written(&uneven()));
}
