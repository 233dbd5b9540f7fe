//! The page docs/REFUSALS.md, every input of it, by the plain program. The relay's tests try the same inputs with the C functions.
use crate::paper::{self, Refused, Stage};

const PAGE: &str = include_str!("../../docs/REFUSALS.md");

/// The rows of the table under a heading of the page, each as its cells.
fn table(heading: &str) -> Vec<Vec<&'static str>> {
    let part = PAGE.split("\n## ").find_map(|part| part.strip_prefix(heading)).expect("a heading of the page");
    let lines = part.lines().filter_map(|line| line.strip_prefix('|')?.strip_suffix('|'));
    lines.skip(2).map(|line| line.split('|').map(str::trim).collect()).collect()
}

/// The bytes of hexadecimal digits, some of them said how often.
fn bytes(text: &str) -> Vec<u8> {
    let part = |part: &str| {
        let (digits, times) = part.split_once('*').unwrap_or((part, "1"));
        let byte = |i: usize| u8::from_str_radix(&digits[i..i + 2], 16).expect("two hexadecimal digits");
        let bytes: Vec<u8> = (0..digits.len()).step_by(2).map(byte).collect();
        bytes.repeat(times.parse().expect("how often"))
    };
    text.split_whitespace().flat_map(part).collect()
}

/// What the plain program says of the first bytes of an input of the page: of all but so many.
fn refused(cell: &str, without: usize) -> Option<Refused> {
    let (given, text) = cell.trim_matches('`').split_once(':').expect("what is given, a colon, bytes");
    let bytes = bytes(text);
    let bytes = &bytes[..bytes.len() - without];
    match given.split_once(' ') {
        Some(("block", version)) => paper::block(version.parse().expect("a version"), bytes, &[0; 520]).err(),
        _ if given == "layout" => paper::tidy(bytes, 71, &[0; 520]).err(),
        _ => match paper::fed(bytes, &[], &[0; 520])[..] {
            [Stage::Refused(refused)] => Some(refused),
            _ => None,
        },
    }
}

#[test]
fn every_smallest_input_of_the_page_has_its_number_and_place() {
    let mut numbers = Vec::new();
    for row in table("Numbers with a place") {
        let [number, _, _, _, smallest, at, _] = row[..] else { panic!("seven cells: {row:?}") };
        let wanted = (number.parse().expect("a number"), Some(at.parse().expect("a place")));
        assert_eq!(refused(smallest, 0), Some(wanted), "{smallest}");
        let length = bytes(smallest.trim_matches('`').split_once(':').expect("a colon").1).len();
        for without in 1..=length {
            assert_ne!(refused(smallest, without).map(|one| one.0), Some(wanted.0), "{smallest} without {without}");
        }
        numbers.push(wanted.0);
    }
    assert!(paper::AFTER_NUL.iter().all(|number| numbers.contains(number)), "{numbers:?}");
}

#[test]
fn every_part_of_a_layout_that_may_not_fit_is_at_its_place() {
    for row in table("What 50 points to") {
        let [_, smallest, at] = row[..] else { panic!("three cells: {row:?}") };
        assert_eq!(refused(smallest, 0), Some((50, Some(at.parse().expect("a place")))), "{smallest}");
    }
}
