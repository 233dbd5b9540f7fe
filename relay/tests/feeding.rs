//! The feed of this package beside the library's own, and what a relay does with it besides feeding.
mod common;
#[allow(dead_code)]
#[path = "../fuzz/gen.rs"]
mod gen;

use common::{capture, p10, plain, stream_of};
use dbn_start::{ffi, Block, Day, Fed, Feed, Limits, Refusal, RefusalKind, Sheet, Step, Tables};
use gen::Rng;

/// The library's answer to a piece, with a store and tables that are long enough: the number, and taken, held, needed and the place.
fn library(
    held: usize,
    store: &mut [u8],
    piece: &[u8],
    sheet: &[u16; 520],
    [symbology, layout]: &mut [Vec<u32>; 2],
) -> (u32, [u64; 4]) {
    let mut out = [0; 20];
    // SAFETY: every pointer is to a buffer of the given length, and no two overlap.
    let number = unsafe {
        ffi::dbn_feed(
            held as u64,
            store.as_mut_ptr(),
            store.len(),
            piece.as_ptr(),
            piece.len(),
            sheet,
            symbology.as_mut_ptr(),
            symbology.len(),
            layout.as_mut_ptr(),
            layout.len(),
            &mut out,
        )
    };
    (number, [16, 17, 18, ffi::PLACE].map(|i| out[i]))
}

/// What a refusal is, and where.
fn told(refusal: Refusal) -> (RefusalKind, Option<usize>) {
    (refusal.kind(), refusal.place())
}

#[test]
fn every_piece_is_answered_as_the_library_answers_it() {
    let (mut ends, mut store, mut tables) = ([0; 3], vec![0; 8 + 65_535], [vec![0; 24_000], vec![0; 36_000]]);
    for seed in 0..5_000 {
        let mut r = Rng::new(seed);
        let sheet = gen::plain_sheet();
        let version = 1 + r.below(4) as u8;
        let mut bytes = gen::stream(&mut r, &sheet, version);
        for _ in 0..r.pick(&[0, 0, 1, 1, 2]) {
            bytes = gen::damage(&mut r, &bytes);
        }
        if bytes.len() >= 8 {
            bytes[6..8].fill(0);
        }
        let mut feed = Feed::new(Limits::default()).with_sheet(Sheet::from(sheet.0));
        let (mut at, mut held) = (0, 0);
        let most = r.pick(&[3, 40, 300, 4000]);
        while at < bytes.len() {
            let piece = &bytes[at..][..(1 + r.below(most)).min(bytes.len() - at)];
            let (number, [taken, now, needed, place]) = library(held, &mut store, piece, &sheet.0, &mut tables);
            let step = if needed > 0 { Step::Needs(needed as usize) } else { Step::Done };
            let wanted = match RefusalKind::from_number(number) {
                None => Ok(Fed { taken: taken as usize, step }),
                Some(kind) => Err((kind, kind.has_place().then_some(place as usize))),
            };
            assert_eq!(feed.feed(piece).map_err(told), wanted, "seed {seed}, byte {at}");
            assert_eq!(feed.step().map_err(told), wanted.map(|fed| fed.step));
            held = now as usize;
            assert_eq!(feed.held(), &store[..held], "seed {seed}, byte {at}");
            assert_eq!(feed.block().is_some(), wanted.is_ok_and(|fed| fed.step == Step::Done));
            at += piece.len();
        }
        ends[feed.step().map_or(0, |step| if step == Step::Done { 1 } else { 2 })] += 1;
    }
    assert!(ends.iter().all(|&end| end > 300), "refused, done, waiting: {ends:?}");
}

#[test]
fn a_source_is_answered_as_its_bytes_are() {
    let mut ends = [0; 3];
    for seed in 0..2_000 {
        let mut r = Rng::new(seed);
        let sheet = gen::plain_sheet();
        let version = 1 + r.below(4) as u8;
        let mut bytes = gen::stream(&mut r, &sheet, version);
        for _ in 0..r.pick(&[0, 1, 2]) {
            bytes = gen::damage(&mut r, &bytes);
        }
        let mut feeds = [(); 2].map(|()| Feed::new(Limits::default()).with_sheet(Sheet::from(sheet.0)));
        let [fed, read] = &mut feeds;
        let taken = fed.feed(&bytes).map(|fed| fed.taken).unwrap_or(fed.held().len());
        let mut source = &bytes[..];
        assert_eq!(read.read_from(&mut source).ok(), fed.step().ok(), "seed {seed}");
        assert_eq!((read.step().map_err(told), read.held()), (fed.step().map_err(told), fed.held()), "seed {seed}");
        assert_eq!(source, &bytes[taken..], "seed {seed}");
        ends[fed.step().map_or(0, |step| if step == Step::Done { 1 } else { 2 })] += 1;
    }
    assert!(ends.iter().all(|&end| end > 100), "refused, done, waiting: {ends:?}");
}

#[test]
fn after_done_and_after_a_refusal_nothing_is_taken() {
    let (bytes, _) = capture();
    let mut feed = Feed::new(Limits::default());
    feed.feed(&bytes).unwrap();
    let names = feed.block().unwrap().symbols().map(str::as_ptr).collect::<Vec<_>>();
    for more in [&b""[..], b"records", &bytes] {
        assert_eq!(feed.feed(more), Ok(Fed { taken: 0, step: Step::Done }));
    }
    assert_eq!(feed.block().unwrap().symbols().map(str::as_ptr).collect::<Vec<_>>(), names, "the same bytes");
    let mut feed = Feed::new(Limits::default());
    let refused = stream_of(2, &p10([0x45, 0xFF, 0]));
    let refusal = feed.feed(&refused).expect_err("a symbol that is no text");
    assert_eq!(told(refusal), (RefusalKind::ListNotUtf8, Some(108)), "from the block, and not from the stream");
    assert_eq!((feed.feed(&bytes), feed.step()), (Err(refusal), Err(refusal)));
    assert_eq!((feed.held(), feed.block().is_none()), (&refused[..], true));
}

#[test]
fn a_feed_begins_anew_with_its_sheet_and_hands_over_its_bytes() {
    let (bytes, _) = capture();
    let mut feed = Feed::new(Limits::default());
    for _ in 0..3 {
        assert_eq!(feed.feed(&bytes[..100]).map(|fed| fed.step), Ok(Step::Needs(bytes.len() - 100)));
        feed.reset();
        assert_eq!((feed.held(), feed.step()), (&b""[..], Ok(Step::Needs(8))));
        assert_eq!(feed.feed(&bytes).map(|fed| fed.step), Ok(Step::Done));
        assert_eq!(feed.take_held(), bytes);
        assert_eq!((feed.held(), feed.step()), (&b""[..], Ok(Step::Needs(8))));
        assert_eq!(feed.feed(b"nothing of the kind").map_err(told), Err((RefusalKind::Magic, Some(0))));
        assert_eq!(feed.take_held(), b"nothing ");
    }
}

#[test]
fn a_sheet_is_wanted_for_version_4_alone() {
    let layout = [1, 0, 0, 0, 0, 0, 0, 0];
    let mut block = vec![0; 100];
    block.extend((layout.len() as u32).to_le_bytes());
    block.extend(layout);
    block.extend(16u32.to_le_bytes());
    block.extend([0; 16]);
    let stream = stream_of(4, &block);
    let mut feed = Feed::new(Limits::default());
    assert_eq!(feed.feed(&stream[..8]).map_err(told), Err((RefusalKind::NoSheet, None)));
    let mut feed = Feed::new(Limits::default()).with_sheet(plain());
    assert_eq!(feed.feed(&stream).map(|fed| fed.step), Ok(Step::Done));
    assert_eq!(feed.block().unwrap().version(), 4);
    assert_eq!(feed.block().unwrap().layout().unwrap().version(), 1);
    let mut tables = Tables::default();
    let refused = Block::read(4, &block, None, &mut tables).map(|_| ()).map_err(told);
    assert_eq!(refused, Err((RefusalKind::NoSheet, None)));
    assert_eq!(Block::read(4, &block, &plain(), &mut tables).map(|block| block.fields().layout_version), Ok(Some(1)));
    let older = p10([0x45, 0x53, 0]);
    for version in [2, 3] {
        let read = Block::read(version, &older, None, &mut tables).unwrap();
        assert_eq!((read.version(), read.layout().is_none()), (version, true));
    }
    let refused = Block::read(7, &older, None, &mut tables).map(|_| ()).map_err(told);
    assert_eq!(refused, Err((RefusalKind::Version, Some(3))), "the version's place in a prelude");
}

#[test]
fn rows_beyond_the_limit_are_refused_by_3() {
    let (bytes, _) = capture();
    let fed = |rows: usize| Feed::new(Limits { bytes: 4096, rows }).feed(&bytes).map(|fed| fed.step).map_err(told);
    assert_eq!(fed(5), Err((RefusalKind::TableShort, None)));
    assert_eq!(fed(6), Ok(Step::Done));
    let read = Block::read(2, &bytes[8..], None, &mut Tables::new(5)).map(|_| ()).map_err(told);
    assert_eq!(read, Err((RefusalKind::TableShort, None)));
    assert!(Block::read(2, &bytes[8..], None, &mut Tables::new(6)).is_ok());
}

#[test]
fn what_is_listed_outlives_the_list() {
    let (bytes, _) = capture();
    let mut tables = Tables::default();
    let block = Block::read(2, &bytes[8..], None, &mut tables).unwrap();
    let days: Vec<_> = block.mappings().flat_map(|mapping| mapping.intervals()).map(|one| one.start_date).collect();
    assert_eq!(days, [20230101, 20230317, 20230616, 20230915].map(|date| Day::from_yyyymmdd(date).expect("a date")));
    let symbols = { Block::clone(&block).symbols() };
    assert_eq!(symbols.collect::<Vec<_>>(), ["ES.c.0"]);
}
