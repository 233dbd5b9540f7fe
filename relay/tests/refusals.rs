//! Refusals have a name, a number, a sentence and, from reading, a place: in this package, and on the page docs/REFUSALS.md, whose
//! every input is tried with the C functions.
#[path = "../fuzz/calls.rs"]
mod calls;
mod common;

use common::{as_in_rust, hex, stream_of};
use dbn_start::{ffi, prelude, Block, RefusalKind, Tables};

const PAGE: &str = include_str!("../../docs/REFUSALS.md");

#[test]
fn a_refusal_tells_its_name_its_number_its_place_and_its_sentence() {
    let refusal = prelude(b"DBN\x09\x64\0\0\0").expect_err("version 9");
    assert_eq!((refusal.kind(), refusal.number(), refusal.place()), (RefusalKind::Version, 11, Some(3)));
    assert_eq!(refusal.sentence(), "the version is not 1 to 4");
    assert_eq!(refusal.to_string(), "refused by 11 at byte 3: the version is not 1 to 4");
    let error: Box<dyn std::error::Error> = refusal.into();
    assert!(error.to_string().contains("11 at byte 3"));
    let refusal = Block::read(2, &[0; 99], None, &mut Tables::default()).expect_err("99 bytes");
    assert_eq!((refusal.kind(), refusal.place()), (RefusalKind::Size, None));
    assert_eq!(refusal.to_string(), format!("refused by 13: {}", refusal.sentence()));
}

/// The rows of the table under a heading of the page, each as its cells.
fn table(heading: &str) -> Vec<Vec<&'static str>> {
    let part = PAGE.split("\n## ").find_map(|part| part.strip_prefix(heading)).expect("a heading of the page");
    let lines = part.lines().filter_map(|line| line.strip_prefix('|')?.strip_suffix('|'));
    lines.skip(2).map(|line| line.split('|').map(str::trim).collect()).collect()
}

/// What is given to a C function.
#[derive(Debug, Clone, Copy)]
enum Given {
    Prelude,
    Block(u8),
    Layout,
}

/// An input of the page: what is given, and its bytes.
fn input(cell: &str) -> (Given, Vec<u8>) {
    let (given, bytes) = cell.trim_matches('`').split_once(':').expect("what is given, a colon, bytes");
    let given = match given.split_once(' ') {
        Some(("block", version)) => Given::Block(version.parse().expect("a version")),
        _ if given == "prelude" => Given::Prelude,
        _ => {
            assert_eq!(given, "layout");
            Given::Layout
        }
    };
    let part = |part: &str| match part.split_once('*') {
        Some((byte, times)) => hex(byte).repeat(times.parse().expect("how often")),
        None => hex(part),
    };
    (given, bytes.split_whitespace().flat_map(part).collect())
}

/// A number that no place is, to tell a write by.
const MARK: u64 = 1 << 40;

/// A number and the place after it, where one is written. Nothing else of `out` is.
fn told(number: u32, out: &[u64], place: usize) -> (u32, Option<usize>) {
    let others = out.iter().enumerate().filter(|&(i, _)| i != place && i < 16);
    assert!(number == 0 || others.into_iter().all(|(_, &kept)| kept == MARK), "out after {number}: {out:?}");
    (number, (number != 0 && out[place] != MARK).then_some(out[place] as usize))
}

/// What a feed of a whole stream comes to.
fn fed(stream: &[u8]) -> (u32, Option<usize>) {
    let answer = calls::feed(0, &[0; 256], stream, &[0; 520], &[], &[], &[MARK; 20]);
    told(answer.number, &answer.out, ffi::PLACE)
}

/// The answer to an input, which every C function that takes it gives.
fn answer(given: Given, bytes: &[u8]) -> (u32, Option<usize>) {
    match given {
        Given::Prelude => {
            let (number, out) = calls::prelude(bytes, &[MARK; 4]);
            let answer = told(number, &out, ffi::PRELUDE_PLACE);
            assert_eq!(fed(bytes), answer, "a prelude that is fed");
            answer
        }
        Given::Block(version) => {
            let read = calls::block(version, bytes, &[0; 520], &[], &[], &[MARK; 16]);
            let answer = told(read.number, &read.out, ffi::PLACE);
            if bytes.len() >= 100 {
                assert_eq!(fed(&stream_of(version, bytes)), answer, "a block that is fed");
            }
            answer
        }
        Given::Layout => {
            let read = calls::layout(bytes, 71, &[0; 520], &[0; 90], &[MARK; 16]);
            assert_eq!(calls::layout_plain(bytes, 0, &[0; 520], &[MARK; 16]), (read.number, read.out));
            // A layout that the reader takes may be untidy.
            let (number, out) = calls::tidy(bytes, 71, &[0; 520], &[MARK; 16]);
            assert!(read.number == 0 || (number, out) == (read.number, read.out), "a layout that may be tidy");
            told(number, &out, ffi::PLACE)
        }
    }
}

#[test]
fn every_number_with_a_place_has_its_smallest_input_on_the_page() {
    let mut numbers = Vec::new();
    for row in table("Numbers with a place") {
        let [number, name, when, place, smallest, at, say] = row[..] else { panic!("seven cells: {row:?}") };
        let number: u32 = number.parse().expect("a number");
        let kind = RefusalKind::from_number(number).expect("a number of the table");
        assert_eq!(as_in_rust(name.trim_matches('`')), format!("{kind:?}"));
        assert!(
            [when, say].iter().all(|text| text.ends_with(['.', '?'])) && !place.is_empty(),
            "the texts of {number}"
        );
        let (given, bytes) = input(smallest);
        assert_eq!(answer(given, &bytes), (number, Some(at.parse().expect("a place"))), "{smallest}");
        for length in 0..bytes.len() {
            assert_ne!(answer(given, &bytes[..length]).0, number, "{length} bytes of {smallest}");
        }
        numbers.push(number);
    }
    let placed = RefusalKind::ALL.iter().filter(|kind| kind.has_place());
    assert_eq!(numbers, placed.map(|kind| kind.number()).collect::<Vec<_>>(), "each once, rising");
}

#[test]
fn every_part_of_a_layout_that_may_not_fit_is_on_the_page() {
    let rows = table("What 50 points to");
    assert_eq!(rows.len(), 17);
    for row in rows {
        let [_, smallest, at] = row[..] else { panic!("three cells: {row:?}") };
        let wanted = (50, Some(at.parse().expect("a place")));
        let (given, bytes) = input(smallest);
        assert_eq!(answer(given, &bytes), wanted, "{smallest}");
        for length in 0..bytes.len() {
            assert_ne!(answer(given, &bytes[..length]), wanted, "{length} bytes of {smallest}");
        }
    }
}

#[test]
fn every_number_without_a_place_is_on_the_page() {
    let listed: Vec<_> = table("Numbers without a place")
        .into_iter()
        .map(|row| {
            let [number, name, when] = row[..] else { panic!("three cells: {row:?}") };
            (number.parse().expect("a number"), as_in_rust(name.trim_matches('`')), when.to_string())
        })
        .collect();
    let bare = RefusalKind::ALL.iter().filter(|kind| !kind.has_place() && kind.number() < 200);
    let bare: Vec<_> = bare.map(|kind| (kind.number(), format!("{kind:?}"), kind.sentence().to_string())).collect();
    assert_eq!(listed, bare);
}
