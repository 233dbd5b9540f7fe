//! What a feed takes of the machine: it grows with what arrives, stays below the stated bound, and is told where there is none. Records take nothing, and
//! house files their length and their tables.
use dbn_start::{Block, Feed, Frames, HouseFile, Limits, Refusal, RefusalKind, Sheet, Step, Tables};
use std::{
    alloc::{GlobalAlloc, Layout, System},
    cell::Cell,
    ptr::null_mut,
};

/// Counts what this thread has, and the most it had, and gives no more than it may. A buffer that grows is there twice while it moves.
struct Counting;

thread_local! {
    static HAS: Cell<usize> = const { Cell::new(0) };
    static MOST: Cell<usize> = const { Cell::new(0) };
    static MAY: Cell<usize> = const { Cell::new(usize::MAX) };
}

// SAFETY: memory is the system's, whose promises these are; the counts need no memory.
unsafe impl GlobalAlloc for Counting {
    unsafe fn alloc(&self, layout: Layout) -> *mut u8 {
        let has = HAS.get().wrapping_add(layout.size());
        if has > MAY.get() {
            return null_mut();
        }
        HAS.set(has);
        MOST.set(MOST.get().max(has));
        // SAFETY: as the caller promises.
        unsafe { System.alloc(layout) }
    }

    unsafe fn dealloc(&self, at: *mut u8, layout: Layout) {
        HAS.set(HAS.get().wrapping_sub(layout.size()));
        // SAFETY: as the caller promises.
        unsafe { System.dealloc(at, layout) }
    }
}

#[global_allocator]
static COUNTING: Counting = Counting;

/// What the work gives, and the most memory that it had beyond what was there before.
fn most<A>(work: impl FnOnce() -> A) -> (A, usize) {
    let before = HAS.get();
    MOST.set(before);
    let answer = work();
    (answer, MOST.get() - before)
}

/// The most that a feed takes with these limits, as src/tables.rs and the README state it.
fn bound(limits: Limits) -> usize {
    2 * limits.bytes + 36 * limits.rows + 4096
}

/// The room that the first bytes of a block are given.
const FIRST: usize = 120 << 10;

/// A version 3 start with `count` symbols of one byte.
fn one_byte_symbols(count: usize) -> Vec<u8> {
    let mut block = vec![0; 104];
    block[45] = 1;
    block.extend((count as u32).to_le_bytes());
    block.resize(108 + count, b'A');
    block.extend([0; 12]);
    let mut stream = b"DBN\x03".to_vec();
    stream.extend((block.len() as u32).to_le_bytes());
    stream.extend(block);
    stream
}

/// Feeds a stream in pieces of 4,096 bytes.
fn fed(stream: &[u8], limits: Limits) -> (Result<Step, RefusalKind>, Feed) {
    let mut feed = Feed::new(limits);
    for piece in stream.chunks(4096) {
        if feed.feed(piece).is_err() {
            break;
        }
    }
    (feed.step().map_err(Refusal::kind), feed)
}

#[test]
fn eight_bytes_that_claim_the_limit_take_the_first_room() {
    let limits = Limits { bytes: 1 << 32, rows: 1 << 30 };
    let claim = [0x44, 0x42, 0x4E, 3, 0xF8, 0xFF, 0xFF, 0xFF];
    let ((step, _), took) = most(|| fed(&claim, limits));
    assert_eq!(step, Ok(Step::Needs((1 << 32) - 8)));
    assert!(took < FIRST + 4096, "{took} bytes");
    // And so on: never more than a few times what came, and the first room.
    for came in [100, 10_000, 1_000_000] {
        let mut bytes = claim.to_vec();
        bytes.resize(came, 0);
        let ((step, _), took) = most(|| fed(&bytes, limits));
        assert_eq!(step, Ok(Step::Needs((1 << 32) - came)));
        assert!(took < 3 * came + FIRST, "{took} bytes for {came}");
        let (feed, took) = most(|| {
            let mut feed = Feed::new(limits);
            assert_eq!(feed.read_from(&mut &bytes[..]).expect("no refusal"), Step::Needs((1 << 32) - came));
            feed
        });
        assert!(took < 3 * came + FIRST, "{took} bytes for {came}");
        assert_eq!(feed.held(), bytes);
    }
}

#[test]
fn a_block_that_is_refused_takes_a_few_times_its_bytes() {
    for came in [200, 5_000, 300_000] {
        // Every width and every length of a layout that the bytes can claim, and bytes that no version accepts.
        for (version, filler) in (1..5).flat_map(|version| [0x00, 0x01, 0x10, 0xFF].map(|filler| (version, filler))) {
            let mut block = vec![filler; came];
            block[..16].fill(0xFF);
            let sheet = Sheet::from([0; 520]);
            let (number, took) = most(|| {
                Block::read(version, &block, &sheet, &mut Tables::default()).map(|_| ()).map_err(Refusal::number)
            });
            assert_eq!(number, Err(20), "a dataset that is no text");
            assert!(took <= 3 * came, "{took} bytes for {came} of version {version}");
        }
    }
}

/// A version 4 start with `count` structs of nothing.
fn empty_structs(count: u16) -> Vec<u8> {
    let mut layout = vec![1, 0, 0, 0];
    layout.extend(count.to_le_bytes());
    layout.extend([8, 0, 0, 0, 0, 0, 0, 0].repeat(count as usize));
    layout.extend([0; 2]);
    let mut block = vec![0; 100];
    block.extend((layout.len() as u32).to_le_bytes());
    block.extend(layout);
    block.extend(16u32.to_le_bytes());
    block.extend([0; 16]);
    let mut stream = b"DBN\x04".to_vec();
    stream.extend((block.len() as u32).to_le_bytes());
    stream.extend(block);
    stream
}

#[test]
fn streams_of_many_kinds_after_each_other_stay_below_the_bound() {
    let limits = Limits { bytes: 500_000, rows: 50_000 };
    let streams = [one_byte_symbols(50_000), empty_structs(50_000), one_byte_symbols(50_000), empty_structs(20_000)];
    let (_, took) = most(|| {
        let mut feed = Feed::new(limits).with_sheet(Sheet::from([0; 520]));
        for stream in &streams {
            feed.reset();
            assert_eq!(feed.feed(stream).map(|fed| fed.step), Ok(Step::Done));
        }
    });
    assert!(took < bound(limits), "{took} bytes");
}

#[test]
fn sixteen_mib_of_one_byte_symbols_stay_below_the_bound() {
    let limits = Limits::default();
    let stream = one_byte_symbols(limits.bytes - 8 - 120);
    assert_eq!(stream.len(), limits.bytes);
    let ((step, _), took) = most(|| fed(&stream, limits));
    assert_eq!(step, Err(RefusalKind::TableShort), "more rows than the limit");
    assert!(took < bound(limits), "{took} bytes");
    println!("16 MiB of one-byte symbols: {took} bytes, the bound is {}", bound(limits));
    // As many rows as the limit has are accepted, within the same bound.
    let stream = one_byte_symbols(limits.rows);
    let ((step, feed), took) = most(|| fed(&stream, limits));
    assert_eq!((step, feed.block().map(|block| block.rows().len())), (Ok(Step::Done), Some(limits.rows)));
    assert!(took < bound(limits), "{took} bytes");
    // Where the caller wants all of 16 MiB, the rows are what it takes.
    let limits = Limits { rows: 1 << 24, ..limits };
    let stream = one_byte_symbols(limits.bytes - 8 - 120);
    let ((step, _), took) = most(|| fed(&stream, limits));
    assert_eq!(step, Ok(Step::Done));
    assert!(took < 2 * limits.bytes + 24 * limits.rows + 4096 && took < bound(limits), "{took} bytes");
}

#[test]
fn no_memory_is_a_refusal() {
    let stream = one_byte_symbols(100_000);
    let told = |may: usize| {
        MAY.set(HAS.get() + may);
        let answer = fed(&stream, Limits::default()).0;
        MAY.set(usize::MAX);
        answer
    };
    assert_eq!(told(50_000), Err(RefusalKind::NoMemory), "for the bytes");
    assert_eq!(told(1_000_000), Err(RefusalKind::NoMemory), "for the rows");
    assert_eq!(told(3_000_000), Ok(Step::Done));
}

#[test]
fn a_feed_that_begins_anew_takes_no_more() {
    let stream = one_byte_symbols(100_000);
    let mut feed = fed(&stream, Limits::default()).1;
    let (_, took) = most(|| {
        for _ in 0..3 {
            feed.reset();
            assert_eq!(feed.feed(&stream).map(|fed| fed.step), Ok(Step::Done));
        }
    });
    assert_eq!(took, 0);
}

#[test]
fn a_house_file_takes_its_length_and_the_tables_of_its_rows() {
    let (stream, limits) = (one_byte_symbols(100_000), Limits::default());
    let (file, took) = most(|| HouseFile::store(&stream, None).expect("an accepted start"));
    assert_eq!(took, file.len(), "the file and nothing else");
    let (loaded, took) = most(|| HouseFile::load(&file, None, limits).expect("its file"));
    assert!(loaded.block().rows().len() == 100_000 && took < file.len() + 24 * 100_000 + 4096, "{took} bytes");
    // Files that are refused take a few times their bytes, whatever their first block claims.
    for (place, filler) in (7..12).flat_map(|place| [0, 1, 4, 0xFF].map(|filler| (place, filler))) {
        let mut changed = file.clone();
        changed[place] = filler;
        let (loaded, took) = most(|| HouseFile::load(&changed, None, limits).map(|_| ()).map_err(Refusal::number));
        assert_eq!(loaded, if changed == file { Ok(()) } else { Err(131) });
        assert!(loaded.is_ok() || took <= 4 * file.len(), "{took} bytes");
    }
    let told = |may: usize| {
        MAY.set(HAS.get() + may);
        let answers = [HouseFile::store(&stream, None).map(|_| ()), HouseFile::load(&file, None, limits).map(|_| ())];
        MAY.set(usize::MAX);
        answers.map(|answer| answer.map_err(Refusal::kind))
    };
    assert_eq!(told(50_000), [Err(RefusalKind::NoMemory); 2], "for the bytes");
    assert_eq!(told(1_000_000), [Ok(()), Err(RefusalKind::NoMemory)], "for the rows");
    assert_eq!(told(3_000_000), [Ok(()); 2]);
}

#[test]
fn records_take_no_memory() {
    let record = [255; 1_020];
    let (frames, took) = most(|| {
        let (mut frames, mut count) = (Frames::new(), 0);
        for mut piece in std::iter::repeat_n(&record, 1_000).flat_map(|record| record.chunks(700)) {
            while frames.next(&mut piece).expect("a record").is_some() {
                count += 1;
            }
        }
        count
    });
    assert_eq!((frames, took), (1_000, 0));
}
