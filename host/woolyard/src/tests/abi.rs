//! The archive, the wrapper and the header are of one ABI.

use super::*;

const HEADER: &str = include_str!("../../../../include/woolyard.h");

/// What the header defines as numbers, by their names.
fn definitions() -> impl Iterator<Item = (&'static str, u64)> {
    HEADER.lines().filter_map(|line| {
        let mut words = line.strip_prefix("#define WOOLYARD_")?.split_whitespace();
        Some((words.next()?, words.next()?.parse().ok()?))
    })
}

/// The number that the header has for this name.
fn defined(name: &str) -> Option<u64> {
    let found = definitions().find(|(other, _)| *other == name);
    found.map(|(_, number)| number)
}

#[test]
fn one_abi() {
    assert_eq!(abi(), ABI);
    assert_eq!(defined("ABI"), Some(ABI));
}

/// The header names them between the answer's and the fluids'.
#[test]
fn every_refusal_of_the_header() {
    let refusals = definitions()
        .skip_while(|(name, _)| *name != "ANSWERED")
        .skip(1)
        .take_while(|(name, _)| *name != "PARAHYDROGEN");
    let mut known = Vec::new();
    for (name, number) in refusals {
        let refusal = Refusal::of(number);
        assert_eq!(refusal.number(), number);
        assert_ne!(refusal, Refusal::Unknown(number), "{name}");
        known.push(number);
    }
    known.sort_unstable();
    known.dedup();
    assert_eq!(known.len(), 18);
}

#[test]
fn sizes_and_names_of_the_header() {
    for (name, own) in [
        ("BOOK_BYTES", BOOK_BYTES as u64),
        ("SHEET_MOST_BYTES", SHEET_MOST_BYTES as u64),
        ("SECTION_MOST_STATES", SECTION_MOST_STATES as u64),
        ("CURSOR", boundary::CURSOR as u64),
        ("PARTS", PARTS as u64),
        ("REPORT", boundary::REPORT as u64),
        ("REPORTING", boundary::REPORTING as u64),
        ("PART_USED_UP", boundary::PART_USED_UP),
        ("WALK_ENOUGH", WALK_ENOUGH),
        ("SCALING_LEAST", SCALING_LEAST),
        ("SCALING_MOST", SCALING_MOST),
        ("SCALING_NONE", SCALING_NONE),
        ("PARAHYDROGEN", Fluid::Parahydrogen.number()),
        ("OXYGEN", Fluid::Oxygen.number()),
        ("NITROGEN", Fluid::Nitrogen.number()),
        ("GAS", Side::Gas.number()),
        ("DENSE", Side::Dense.number()),
    ] {
        assert_eq!(defined(name), Some(own), "{name}");
    }
    let kind = |name| defined(name).map(Kind::of);
    assert_eq!(kind("KIND_ONE"), Some(Ok(Kind::One)));
    assert_eq!(kind("KIND_SPLIT"), Some(Ok(Kind::Split)));
    assert_eq!(kind("KIND_NONE"), Some(Err(Refusal::NO_ANSWER)));
}
