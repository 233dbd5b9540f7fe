//! Document 01's table P, checked by hand, and the examples beside it.
mod common;
use common::{hex, p10, plain, stream_of};
use dbn_start::{ffi, is_date, is_text, prelude, Block, Feed, Layout, Limits, Prelude, Refusal, Step, Tables};

/// What a whole stream start comes to when it is fed at once.
fn fed(bytes: &[u8]) -> Result<Step, Refusal> {
    Feed::new(Limits::default()).with_sheet(plain()).feed(bytes).map(|fed| fed.step)
}

/// The number and the place of a refusal.
fn refused<T: std::fmt::Debug>(answer: Result<T, Refusal>) -> (u32, Option<usize>) {
    let refusal = answer.expect_err("a refusal");
    (refusal.number(), refusal.place())
}

const P7: &str = "0100 0000 0000 0100 0E00 01 53 00 0100 4200 03 426964 00";

/// The rows of a layout, as numbers.
fn rows(bytes: &[u8]) -> Result<Vec<u32>, Refusal> {
    Ok(Layout::read(bytes, 71, &plain(), &mut Tables::default())?.numbers().to_vec())
}

#[test]
fn p1_an_empty_feed_needs_8() {
    assert_eq!(fed(b""), Ok(Step::Needs(8)));
    assert_eq!(prelude(b""), Ok(Prelude::Needs(8)));
}

#[test]
fn p2_two_bytes_need_6() {
    assert_eq!(fed(&hex("4442")), Ok(Step::Needs(6)));
    assert_eq!(prelude(&hex("4442")), Ok(Prelude::Needs(6)));
}

#[test]
fn p3_a_prelude_needs_its_block() {
    assert_eq!(fed(&hex("44424E0264000000")), Ok(Step::Needs(100)));
    assert_eq!(prelude(&hex("44424E0264000000")), Ok(Prelude::Whole { version: 2, length: 100 }));
}

#[test]
fn p4_a_block_of_99_is_12() {
    assert_eq!(refused(fed(&hex("44424E0263000000"))), (12, Some(4)));
    assert_eq!(refused(prelude(&hex("44424E0263000000"))), (12, Some(4)));
}

#[test]
fn p5_version_5_is_11() {
    assert_eq!(refused(fed(&hex("44424E0500000000"))), (11, Some(3)));
    assert_eq!(refused(prelude(&hex("44424E0500000000"))), (11, Some(3)));
}

#[test]
fn the_magic_is_judged_with_eight_bytes() {
    assert_eq!(fed(b"DBM"), Ok(Step::Needs(5)));
    assert_eq!(refused(fed(b"DBM\x02\x64\0\0\0")), (10, Some(0)));
}

#[test]
fn p6_an_empty_layout() {
    let bytes = hex("0100 000000000000");
    let mut table = Tables::default();
    let layout = Layout::read(&bytes, 71, &plain(), &mut table).unwrap();
    assert_eq!((layout.version(), layout.rows().len()), (1, 0));
}

#[test]
fn p7_one_label() {
    assert_eq!(rows(&hex(P7)), Ok(vec![14, 11, 1, 1, 0, 0, 0, 0, 0, 15, 18, 3, 66, 0, 0, 0, 0, 0]));
    let (bytes, mut table) = (hex(P7), Tables::default());
    let layout = Layout::read(&bytes, 71, &plain(), &mut table).unwrap();
    let def = layout.label_defs().next().unwrap();
    let label = def.labels().next().unwrap();
    assert_eq!((def.name, label.code, label.name), ("S", 66, "Bid"));
}

#[test]
fn p8_leftovers_in_a_section_are_ignored() {
    let mut bytes = hex(P7);
    bytes[8] = 0x10;
    bytes.extend([0xAA, 0xAA]);
    assert_eq!(rows(&bytes), rows(&hex(P7)));
}

#[test]
fn p9_a_section_below_2_is_51() {
    let mut bytes = hex(P7);
    bytes[8] = 1;
    assert_eq!(refused(rows(&bytes)), (51, Some(8)));
}

#[test]
fn p10_one_symbol() {
    let bytes = p10([0x45, 0x53, 0]);
    assert_eq!(bytes.len(), 123);
    let mut tables = Tables::default();
    let block = Block::read(2, &bytes, &plain(), &mut tables).unwrap();
    assert_eq!(block.rows().collect::<Vec<_>>(), [[0, 108, 2, 0, 0, 0]]);
    assert_eq!(block.symbols().collect::<Vec<_>>(), ["ES"]);
    assert_eq!(fed(&stream_of(2, &bytes)), Ok(Step::Done));
}

#[test]
fn p11_a_letter_after_a_nul_is_41() {
    let bytes = p10([0x45, 0, 0x53]);
    assert_eq!(refused(Block::read(2, &bytes, &plain(), &mut Tables::default())), (41, Some(108)));
    assert_eq!(refused(fed(&stream_of(2, &bytes))), (41, Some(108)), "from the block");
}

#[test]
fn p12_dates() {
    assert_eq!([20240229, 20000229, 19000229, 20241301].map(is_date), [true, true, false, false]);
}

#[test]
fn p13_texts() {
    let texts = ["E2808D", "C080", "EDA080", "F4908080"].map(|text| is_text(&hex(text)));
    assert_eq!(texts, [true, false, false, false]);
}

#[test]
fn a_layout_length_past_the_end_is_44_before_25() {
    let mut block = p10([0, 0, 0])[..104].to_vec();
    block[100] = 5;
    block.extend([0; 4]);
    assert_eq!(refused(Block::read(2, &block, &plain(), &mut Tables::default())), (44, Some(104)));
    block.push(0);
    assert_eq!(refused(Block::read(2, &block, &plain(), &mut Tables::default())), (25, Some(100)));
}

#[test]
fn a_layout_length_that_is_missing_is_24() {
    for length in 100..104 {
        let block = &p10([0, 0, 0])[..length];
        assert_eq!(refused(Block::read(2, block, &plain(), &mut Tables::default())), (24, Some(100)));
    }
}

#[test]
fn a_symbology_length_that_is_missing_is_27_and_one_past_the_end_is_45() {
    let mut block = vec![0; 100];
    block.extend(hex("08000000 0100000000000000 11000000"));
    block.extend([0; 16]);
    for (length, number, place) in [(112, 27, 112), (115, 27, 112), (116, 45, 116), (132, 45, 116)] {
        let answer = refused(Block::read(4, &block[..length], &plain(), &mut Tables::default()));
        assert_eq!(answer, (number, Some(place)), "{length} bytes");
    }
    block.push(0);
    let answer = refused(Block::read(4, &block, &plain(), &mut Tables::default()));
    assert_eq!(answer, (28, Some(132)), "one byte that the contents do not reach");
}

/// The number of a date, or the date of a day number. What is neither leaves `out` as it was.
fn told(call: unsafe extern "C" fn(u32, *mut [u64; 1]) -> u32, number: u32) -> Option<u64> {
    let mut out = [u64::MAX - 7];
    // SAFETY: `out` is ours.
    match (unsafe { call(number, &mut out) }, out) {
        (1, [told]) => Some(told),
        (0, [left]) => {
            assert_eq!(left, u64::MAX - 7, "out after {number}");
            None
        }
        (answer, _) => panic!("{answer} is no answer to {number}"),
    }
}

/// The last day of a month, 0 where there is no such month.
fn last_day(year: u32, month: u32) -> u32 {
    let leap = (year % 4 == 0 && year % 100 != 0) || year % 400 == 0;
    match month {
        2 if leap => 29,
        1..=12 => [31, 28, 31, 30, 31, 30, 31, 31, 30, 31, 30, 31][month as usize - 1],
        _ => 0,
    }
}

#[test]
fn every_date_has_the_next_number_and_nothing_else_is_a_date() {
    let mut day = 0;
    for first in (0..100_000_000).step_by(100) {
        let last = last_day(first / 10000, first / 100 % 100);
        for date in first..first + 100 {
            if (1..=last).contains(&(date % 100)) {
                assert_eq!(told(ffi::dbn_date, date), Some(day), "{date}");
                assert_eq!(told(ffi::dbn_day, day as u32), Some(date as u64), "day {day}");
                day += 1;
            } else {
                assert_eq!(told(ffi::dbn_date, date), None, "{date}");
            }
        }
    }
    assert_eq!(day, 3_652_425);
}

#[test]
fn no_date_after_year_9999_and_no_day_after_its_last() {
    for date in (100_000_000..=100_001_231).chain([1_000_000_101, 4_294_951_231, u32::MAX]) {
        assert_eq!(told(ffi::dbn_date, date), None, "{date}");
    }
    assert_eq!(told(ffi::dbn_day, 3_652_424), Some(99_991_231));
    for day in (3_652_425..4_000_000).chain((0..32).map(|bit| u32::MAX << bit)).filter(|&day| day > 3_652_424) {
        assert_eq!(told(ffi::dbn_day, day), None, "day {day}");
    }
}

#[test]
fn texts_of_up_to_three_bytes_are_as_the_standard_library_says() {
    for a in 0..=255u8 {
        assert_eq!(is_text(&[a]), std::str::from_utf8(&[a]).is_ok());
        for b in 0..=255u8 {
            assert_eq!(is_text(&[a, b]), std::str::from_utf8(&[a, b]).is_ok());
            for c in 0..=255u8 {
                let bytes = [a, b, c];
                assert_eq!(is_text(&bytes), std::str::from_utf8(&bytes).is_ok(), "{bytes:02x?}");
            }
        }
    }
}
