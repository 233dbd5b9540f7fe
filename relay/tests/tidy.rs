//! Whether a layout is the bytes that the writer gives for its rows: each untidy thing with its place, the first of two, the reader's refusals
//! before any, and the same answer as reading, writing and comparing.
mod common;
#[allow(dead_code)]
#[path = "../fuzz/mod.rs"]
mod fuzz;
#[allow(dead_code)]
#[path = "../measure/shapes.rs"]
mod shapes;

use common::{hex, plain};
use dbn_start::{write_layout, Layout, RefusalKind, Tables};
use fuzz::{calls, gen, tidy, untidy};
use std::collections::{BTreeMap, BTreeSet};

/// One record of two fields, one struct of one field, and two label defs, the first of three labels. 126 bytes; the places are counted by hand.
fn tidy_layout() -> Vec<u8> {
    let parts = [
        "0700 0100",                                     // 0: version 7, one record
        "3e00 a001 0300 2000 8877665544332211 02416200", // 4: the record's section, of 62 bytes
        "0200",                                          // 24: two fields
        "0100 0000 1800 03 00 0000 00 0000000000",       // 26
        "0200 1800 0800 08 00 0000 00 0000000000",       // 42
        "02686400 02707800",                             // 58: their names
        "0100",                                          // 66: one struct
        "1c00 0800 015300 0100",                         // 68: its section, of 28 bytes
        "0100 0000 0800 08 00 0000 00 0000000000",       // 77
        "016100",                                        // 93: its name
        "0200",                                          // 96: two label defs
        "1600 014c00 0300",                              // 98: the first, of 22 bytes
        "4100 014100 4200 014200 4300 014300",           // 105: three labels of five bytes
        "0600 0000 0000",                                // 120: the second, of 6 bytes
    ];
    parts.iter().flat_map(|part| hex(part)).collect()
}

/// An untidy thing: its number, its place, and the bytes that make it. Bytes are put over those that are there, or are left over: then the section
/// that begins at a place becomes so much longer.
struct Thing {
    number: u32,
    place: usize,
    put: Put,
}

enum Put {
    Over(&'static [u8]),
    Left { section: Option<usize>, bytes: &'static [u8] },
}

impl Thing {
    fn put(&self, layout: &mut Vec<u8>) {
        match self.put {
            Put::Over(bytes) => layout[self.place..self.place + bytes.len()].copy_from_slice(bytes),
            Put::Left { section, bytes } => {
                section.into_iter().for_each(|at| layout[at] += bytes.len() as u8);
                layout.splice(self.place..self.place, bytes.iter().copied());
            }
        }
    }

    /// The answer to a layout in which this is the first untidy thing.
    fn answer(&self) -> Answer {
        Err((self.number, Some(self.place)))
    }
}

/// Every untidy thing that the layout has a place for, some in several ways, in wire order.
fn things() -> Vec<Thing> {
    let over = |number, place, bytes| Thing { number, place, put: Put::Over(bytes) };
    let left = |number, place, section, bytes| Thing { number, place, put: Put::Left { section, bytes } };
    vec![
        over(122, 37, &[1]),
        over(122, 41, &[0x80]),
        over(122, 53, &[0xFF, 0, 1]),
        over(122, 57, &[0xFF]),
        left(120, 66, Some(4), &[0]),
        left(120, 66, Some(4), &[1, 2, 3]),
        over(122, 90, &[7, 7, 7]),
        left(120, 96, Some(68), &[0, 0]),
        over(121, 110, &[0x40]),
        over(121, 115, &[0x00]),
        left(120, 120, Some(98), &[0xFF]),
        left(120, 126, Some(120), &[0]),
        left(123, 126, None, &[0]),
        left(123, 126, None, &[0xFF, 0]),
    ]
}

/// The layout with each of these things, which are in wire order. The last goes first, so that none moves another's place.
fn untidy_layout(things: &[&Thing]) -> Vec<u8> {
    let mut layout = tidy_layout();
    things.iter().rev().for_each(|thing| thing.put(&mut layout));
    layout
}

/// Tidy, or the number and the place.
type Answer = Result<(), (u32, Option<usize>)>;

fn answer(layout: &[u8]) -> Answer {
    Layout::tidy(layout, 8, &plain()).map_err(|refusal| (refusal.number(), refusal.place()))
}

/// What the reader says: accepted, or the number and the place.
fn read(layout: &[u8]) -> Answer {
    let mut table = Tables::default();
    let read = Layout::read(layout, 8, &plain(), &mut table).map(|_| ());
    read.map_err(|refusal| (refusal.number(), refusal.place()))
}

#[test]
fn a_tidy_layout_is_what_the_writer_gives_for_its_rows() {
    let (layout, sheet, mut table) = (tidy_layout(), plain(), Tables::default());
    assert_eq!((layout.len(), answer(&layout)), (126, Ok(())));
    let read = Layout::read(&layout, 8, &sheet, &mut table).expect("an accepted layout");
    let mut output = vec![0xEE; layout.len()];
    assert_eq!(write_layout(read.numbers(), &layout, 7, 8, &sheet, &mut output), Ok(126));
    assert_eq!(output, layout);
    assert_eq!(answer(&hex("0100 0000 0000 0000")), Ok(()), "no records, structs or label defs");
}

#[test]
fn each_untidy_thing_has_its_number_and_its_place() {
    for thing in things() {
        let layout = untidy_layout(&[&thing]);
        assert_eq!(answer(&layout), thing.answer());
        assert_eq!(read(&layout), Ok(()), "the reader takes it");
    }
    let refusal = Layout::tidy(&hex("0100 0000 0000 0000 00"), 8, &plain()).expect_err("a byte left over");
    assert_eq!((refusal.kind(), refusal.place()), (RefusalKind::LeftoverAfterLabels, Some(8)));
}

#[test]
fn the_first_of_two_untidy_things_wins() {
    let (things, mut met) = (things(), BTreeSet::new());
    for (i, first) in things.iter().enumerate() {
        for second in things[i + 1..].iter() {
            assert_eq!(answer(&untidy_layout(&[first, second])), first.answer(), "before {:?}", second.answer());
            met.insert((first.number, second.number));
        }
    }
    // Entries stand before labels, and nothing after the bytes that are left over at the end.
    let never = [(121, 122), (123, 120), (123, 121), (123, 122)];
    let pairs = (120..=123).flat_map(|first| (120..=123).map(move |second| (first, second)));
    assert_eq!(met, pairs.filter(|pair| !never.contains(pair)).collect());
}

#[test]
fn the_reader_s_refusals_come_first() {
    let things = things();
    let all = untidy_layout(&things.iter().collect::<Vec<_>>());
    assert_eq!(answer(&all), things[0].answer());
    let cut = (0..all.len()).map(|length| all[..length].to_vec());
    let changed = (0..all.len()).flat_map(|place| {
        let put = |byte: u8| [&all[..place], &[byte], &all[place + 1..]].concat();
        [0, 1, 2, 9, 0x4E, 0xFF, all[place] ^ 1, all[place] ^ 8].map(put)
    });
    let mut met = BTreeSet::new();
    for layout in cut.chain(changed) {
        match read(&layout) {
            Ok(()) => assert!(answer(&layout).is_err_and(|(number, _)| number >= 120)),
            refused => {
                assert_eq!(answer(&layout), refused);
                met.extend(refused.err().map(|(number, _)| number));
            }
        }
    }
    assert!((50..=55).all(|number| met.contains(&number)) && met.len() > 18, "{met:?}");
}

#[test]
fn yes_and_numbers_without_a_place_leave_out_as_it_was() {
    let (sheet, marks) = (plain(), std::array::from_fn(|i| 1000 + i as u64));
    let told = |layout: &[u8]| calls::tidy(layout, 8, sheet.numbers(), &marks);
    let placed = |number: u32, place: u64| {
        let mut out = marks;
        out[dbn_start::ffi::PLACE] = place;
        (number, out)
    };
    assert_eq!(told(&tidy_layout()), (0, marks));
    for thing in things() {
        let mut layout = untidy_layout(&[&thing]);
        assert_eq!(told(&layout), placed(thing.number, thing.place as u64));
        layout[6] = 0x4E;
        assert_eq!(told(&layout), (62, marks), "an rtype that is reserved");
    }
    assert_eq!(told(&tidy_layout()[..125]), placed(50, 122));
}

/// What the reader says with a table that is long enough.
fn read_rows(bytes: &[u8], width: u16, sheet: &gen::Sheet, out: &[u64; 16]) -> calls::LayoutAnswer {
    let bare = calls::layout(bytes, width, &sheet.0, &[], out);
    let rows = if bare.number == 3 { bare.out[11] as usize } else { 0 };
    calls::layout(bytes, width, &sheet.0, &vec![0; 9 * rows], out)
}

/// A made layout and its width: tidy but for a few things, or bent or filled; of four one has a byte changed.
fn some_layout(r: &mut gen::Rng, sheet: &gen::Sheet) -> (Vec<u8>, u16) {
    let (mut bytes, width) =
        if r.one_in(4) { gen::some_layout(r, sheet, &[0, 1]) } else { untidy::layout(r, sheet, &[0, 0, 1, 1, 2, 3]) };
    if r.one_in(4) {
        let place = r.below(bytes.len());
        bytes.iter_mut().skip(place).take(1).for_each(|byte| *byte ^= 1 << r.below(8));
    }
    (bytes, width)
}

#[test]
fn a_layout_is_tidy_exactly_if_it_is_read_and_written_as_the_same_bytes() {
    let mut met = BTreeMap::<u32, usize>::new();
    for seed in 0..30_000 {
        let mut r = gen::Rng::new(seed);
        let sheet = match r.below(3) {
            0 => gen::other_sheet(),
            1 => gen::Sheet::random(&mut r),
            _ => gen::plain_sheet(),
        };
        let (bytes, width) = some_layout(&mut r, &sheet);
        let out = [0; 16].map(|_| r.next() | 1);
        let read = read_rows(&bytes, width, &sheet, &out);
        *met.entry(tidy::asked(&bytes, width, &sheet, &read, &out)).or_default() += 1;
    }
    let often = [0, 50, 120, 121, 122, 123].map(|number| met.get(&number).copied().unwrap_or(0));
    assert!(often.iter().all(|&count| count > 500) && met.len() > 20, "{met:?}");
}

#[test]
fn what_is_written_is_tidy() {
    let (sheet, mut written) = (gen::plain_sheet(), [0; 2]);
    for seed in 0..5_000 {
        let mut r = gen::Rng::new(seed);
        let (bytes, width) = some_layout(&mut r, &sheet);
        let read = read_rows(&bytes, width, &sheet, &[0; 16]);
        let rows = &read.rows[..9 * read.out[11] as usize];
        let mut output = vec![0; bytes.len()];
        let of_package = dbn_start::Sheet::from(sheet.0);
        let again = write_layout(rows, &bytes, read.out[9] as u16, width, &of_package, &mut output);
        if let (0, Ok(length)) = (read.number, again) {
            assert_eq!(Layout::tidy(&output[..length], width, &of_package), Ok(()));
            written[(output[..length] == bytes) as usize] += 1;
        }
    }
    assert!(written.iter().all(|&count| count > 1_000), "{written:?}");
}

#[test]
fn a_layout_of_any_length_is_looked_at_to_its_end() {
    let (sheet, order) = (shapes::sheet(), shapes::Order::Shuffled);
    let layouts = [
        shapes::daily(),
        shapes::structs(65_535),
        shapes::records(1_000),
        shapes::labels(16_000, false),
        shapes::label_defs(60_000),
        shapes::tiled(3_600, 1, 5, order),
    ];
    for mut layout in layouts {
        let tidy = |layout: &[u8]| Layout::tidy(layout, 71, &sheet).map_err(|refusal| refusal.to_string());
        assert_eq!(tidy(&layout), Ok(()));
        let end = layout.len();
        layout.push(0);
        let sentence = "bytes are left over after the label defs";
        assert_eq!(tidy(&layout), Err(format!("refused by 123 at byte {end}: {sentence}")));
    }
}
