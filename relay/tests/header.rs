//! The header says what the library and this package say: its version, and every refusal's name, number and sentence.
mod common;
use common::as_in_rust;
use dbn_start::{ffi, RefusalKind};

const HEADER: &str = include_str!("../../include/dbn_start.h");
/// The names of the numbers in the library's own code.
const CODE: &str = include_str!("../../crates/refusal/src/lib.rt");

/// The header's X-macro: name, number and sentence of each line.
fn listed() -> Vec<(String, u32, String)> {
    let lines = HEADER.lines().map(str::trim).filter_map(|line| line.strip_prefix("X("));
    let parts = lines.map(|line| {
        let mut parts =
            line.trim_end_matches(['\\', ' ']).strip_suffix(')').expect("a closing bracket").splitn(3, ", ");
        let mut part = || parts.next().expect("three parts");
        let (name, number, sentence) = (part(), part(), part());
        (name.to_string(), number.parse().expect("a number"), sentence.trim_matches('"').to_string())
    });
    parts.collect()
}

#[test]
fn the_header_lists_every_refusal_of_the_library() {
    let own = RefusalKind::ALL.iter().filter(|kind| kind.number() < 200);
    let own: Vec<_> = own.map(|r| (format!("{r:?}"), r.number(), r.sentence().to_string())).collect();
    let listed: Vec<_> = listed().into_iter().map(|(name, number, text)| (as_in_rust(&name), number, text)).collect();
    assert_eq!(listed, own);
}

#[test]
fn names_and_numbers_are_those_of_the_code() {
    let constants = CODE.lines().filter_map(|line| line.strip_prefix("pub const ")).map(|line| {
        let (name, number) = line.split_once(": u32 = ").expect("a number's constant");
        (name.to_string(), number.trim_end_matches(';').parse().expect("a number"))
    });
    let listed: Vec<(String, u32)> = listed().into_iter().map(|(name, number, _)| (name, number)).collect();
    assert_eq!(listed, constants.collect::<Vec<_>>());
}

#[test]
fn places_stand_where_the_header_says() {
    for (name, place) in [("DBN_OUT_PLACE", ffi::PLACE), ("DBN_PRELUDE_PLACE", ffi::PRELUDE_PLACE)] {
        assert!(HEADER.contains(&format!("{name} = {place}")), "{name}");
    }
    let ranges = [10..=12, 20..=55, 120..=123];
    let told = ranges.clone().map(|range| format!("(number >= {} && number <= {})", range.start(), range.end()));
    assert!(HEADER.contains(&format!("return {};", told.join(" || "))));
    let placed = |number: u32| ranges.iter().any(|range| range.contains(&number));
    assert!(RefusalKind::ALL.iter().all(|kind| kind.has_place() == placed(kind.number())));
}

#[test]
fn records_are_told_as_the_header_says() {
    for (name, number) in [("DBN_FRAME_HEADER", ffi::FRAME_HEADER), ("DBN_FRAME_MOST", ffi::FRAME_MOST)] {
        assert!(HEADER.contains(&format!("{name} = {number}")), "{name}");
    }
    for (place, name) in ["TAKEN", "HELD", "NEEDED", "LENGTH", "RTYPE"].into_iter().enumerate() {
        assert!(HEADER.contains(&format!("DBN_FRAME_{name} = {place}")), "{name}");
    }
}

#[test]
fn house_files_are_told_as_the_header_says() {
    let sizes = [("BLOCK", ffi::HOUSE_BLOCK), ("PAYLOAD", ffi::HOUSE_PAYLOAD), ("MOST", ffi::HOUSE_MOST)];
    for (name, number) in sizes.into_iter().chain([("LENGTH", 0)]) {
        assert!(HEADER.contains(&format!("DBN_HOUSE_{name} = {number}")), "{name}");
    }
}

#[test]
fn days_are_told_as_the_header_says() {
    assert!(HEADER.contains(&format!("DBN_DAY_LAST = {}", ffi::DAY_LAST)));
    for name in ["DBN_DATE_DAY", "DBN_DAY_DATE"] {
        assert!(HEADER.contains(&format!("{name} = 0")), "{name}");
    }
}

#[test]
fn rows_are_as_wide_as_the_header_says() {
    for (name, width) in [("DBN_SYMBOLOGY_ROW", ffi::SYMBOLOGY_ROW), ("DBN_LAYOUT_ROW", ffi::LAYOUT_ROW)] {
        assert!(HEADER.contains(&format!("{name} = {width}")), "{name}");
    }
}

#[test]
fn columns_are_numbered_as_the_header_says() {
    let names = ["KIND", "START", "LENGTH", "X", "Y", "OWNER"];
    assert_eq!(names.len(), ffi::SYMBOLOGY_ROW);
    for (number, name) in names.into_iter().enumerate() {
        assert!(HEADER.contains(&format!("DBN_COLUMN_{name} = {number}")), "{name}");
    }
    assert!(HEADER.contains("return (size_t)column * (n / DBN_SYMBOLOGY_ROW) + row;"));
}

/// The functions that a text declares after these words, each with how many parameters it has.
fn declared(text: &str, words: &str) -> Vec<(String, usize)> {
    let one = |part: &str| {
        let (name, rest) = part.split_once('(').expect("parameters");
        let parameters = rest[..rest.find(')').expect("a closing bracket")].split(',');
        (name.to_string(), parameters.filter(|part| !part.trim().is_empty()).count())
    };
    text.split(&format!("\n{words}dbn_")).skip(1).map(one).collect()
}

#[test]
fn the_header_declares_the_functions_of_this_package() {
    let own = declared(include_str!("../src/ffi.rs"), "    pub fn ");
    assert_eq!(declared(HEADER, "uint32_t "), own);
    assert!(own.contains(&("day".to_string(), 2)), "{own:?}");
}

#[test]
fn the_last_refusal_of_the_header_is_the_last_of_the_library() {
    let (name, ..) = listed().pop().expect("a refusal");
    assert!(HEADER.contains(&format!("DBN_REFUSED_LAST = DBN_REFUSED_{name}\n")), "{name}");
}

#[test]
fn the_header_has_this_package_s_version() {
    let part = |name: &str| {
        let line = HEADER.lines().find_map(|line| line.strip_prefix(&format!("#define DBN_START_VERSION_{name} ")));
        line.expect("a part of the version").to_string()
    };
    assert_eq!(["MAJOR", "MINOR", "PATCH"].map(part).join("."), env!("CARGO_PKG_VERSION"));
}
