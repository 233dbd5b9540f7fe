//! The house file: what was stored comes back byte for byte, every refusal in its order, and nothing is touched where a file is refused.
mod common;
#[allow(dead_code)]
#[path = "../fuzz/mod.rs"]
mod fuzz;
#[allow(dead_code)]
#[path = "../measure/shapes.rs"]
mod shapes;

use common::{capture, stream_of, INTERVALS};
use dbn_start::{ffi, Block, Feed, HouseFile, Limits, Refusal, RefusalKind, Sheet, Step, Tables};
use fuzz::{
    calls::{self, FeedAnswer},
    gen,
    house::{self, pack, put_word, seal, unpack, word, BLOCK, CHECK, PAYLOAD},
};
use std::collections::BTreeMap;

/// A version 3 start of so many bytes, 128 or more: no symbols, and bytes after the symbology that the reader skips.
fn start_of(length: usize) -> Vec<u8> {
    let mut block = vec![0; 120];
    block[45] = 71;
    block.extend((120..length - 8).map(|i| (i * 7 + i / 251) as u8));
    stream_of(3, &block)
}

/// Numbers to tell a write by.
fn marks<const N: usize>() -> [u64; N] {
    std::array::from_fn(|i| 1_000 + i as u64)
}

/// What a file of version 3 loads to, in a store of so many marked bytes and with tables that have room for 10 rows each.
fn load(file: &[u8], room: usize) -> FeedAnswer {
    calls::house_load(file, &vec![0xEE; room], &[0; 520], &[0xABCD; 60], &[0xBCDE; 90], &marks())
}

/// What is left where a file is refused and nothing was touched.
fn untouched(number: u32, room: usize) -> FeedAnswer {
    FeedAnswer { number, out: marks(), store: vec![0xEE; room], symbology: vec![0xABCD; 60], layout: vec![0xBCDE; 90] }
}

/// The number of a refusal, and its place.
fn told<T>(answer: Result<T, Refusal>) -> Result<(), (u32, Option<usize>)> {
    answer.map(|_| ()).map_err(|refusal| (refusal.number(), refusal.place()))
}

#[test]
fn a_file_is_as_the_paper_has_it() {
    let start = start_of(128);
    let file = HouseFile::store(&start, None).expect("an accepted start");
    assert_eq!(file.len(), 512);
    assert_eq!((file[..4].to_vec(), &file[4..132]), (vec![0, 0, 128, 0], &start[..]));
    assert_eq!(file[132..CHECK], [0; 376]);
    // The words that are not zero: 128 used bytes, DB, N and 3, the length 120, and the width 71, high in its word.
    let words = [(1, 128), (2, 0x4244), (3, 0x034E), (4, 120), (28, 71 << 8)];
    let a: usize = words.iter().map(|(_, word)| word).sum();
    let b: usize = words.iter().map(|(at, word)| (254 - at) * word).sum();
    assert_eq!([word(&file, CHECK), word(&file, CHECK + 2)], [a % 65_535, b % 65_535]);
    assert_eq!((a, b % 65_535), (36_234, 6_814));
}

#[test]
fn the_capture_comes_back() {
    let (stream, _) = capture();
    let file = HouseFile::store(&stream, None).expect("the capture");
    assert_eq!((file.len(), &file), (1_024, &pack(&stream)));
    let loaded = HouseFile::load(&file, None, Limits::default()).expect("its file");
    assert_eq!(loaded.start(), stream);
    let intervals = |block: Block| {
        let dated = |i: dbn_start::Interval| (i.start_date.yyyymmdd(), i.end_date.yyyymmdd(), i.symbol.to_string());
        block.intervals().map(dated).collect::<Vec<_>>()
    };
    assert_eq!(intervals(loaded.block()), INTERVALS.map(|(start, end, symbol)| (start, end, symbol.to_string())));
    assert!(format!("{loaded:?}").contains("GLBX.MDP3"));
    // What a feed held is stored as well.
    let mut feed = Feed::new(Limits::default());
    assert_eq!(feed.feed(&stream).map(|fed| fed.step), Ok(Step::Done));
    assert_eq!(HouseFile::store(feed.held(), None), Ok(file));
    assert_eq!(loaded.into_start(), stream);
}

#[test]
fn starts_of_each_version_come_back_with_their_fields_and_rows() {
    let sheet = shapes::sheet();
    let symbols = |width| shapes::symbology(width, 40, 9, 4);
    let blocks = [
        (1, shapes::block(1, 22, &symbols(22))),
        (2, shapes::block(2, 71, &symbols(71))),
        (3, shapes::block(3, 1, &shapes::lettered(1, 3_000, "A"))),
        (4, shapes::block4(&shapes::daily())),
    ];
    for (version, block) in blocks {
        let (stream, mut tables) = (stream_of(version, &block), Tables::default());
        let read = Block::read(version, &block, &sheet, &mut tables).expect("an accepted block");
        let file = HouseFile::store(&stream, &sheet).expect("an accepted start");
        assert_eq!(file, pack(&stream), "version {version}");
        let loaded = HouseFile::load(&file, &sheet, Limits::default()).expect("its file");
        assert_eq!((loaded.start(), loaded.block().bytes()), (&stream[..], &block[..]));
        let loaded = loaded.block();
        assert_eq!((loaded.version(), loaded.fields(), loaded.dataset()), (version, read.fields(), read.dataset()));
        assert!(loaded.rows().eq(read.rows()) && read.rows().len() + version as usize >= 4);
        assert_eq!(loaded.layout().map(|it| it.numbers().to_vec()), read.layout().map(|it| it.numbers().to_vec()));
        // One output, longer than the file.
        let mut output = vec![0xEE; file.len() + 3];
        assert_eq!(HouseFile::store_into(&stream, &sheet, &mut output), Ok(file.len()));
        assert_eq!(output, [&file[..], &[0xEE; 3]].concat());
    }
}

#[test]
fn starts_whose_length_is_near_that_of_full_blocks_come_back() {
    for (length, blocks) in [(128, 1), (503, 1), (504, 1), (505, 2), (1_007, 2), (1_008, 2), (1_009, 3), (5_040, 10)] {
        let start = start_of(length);
        let file = HouseFile::store(&start, None).expect("an accepted start");
        assert_eq!((file.len(), &file), (BLOCK * blocks, &pack(&start)));
        assert_eq!(word(&file, BLOCK * (blocks - 1) + 2), length - PAYLOAD * (blocks - 1), "used bytes of {length}");
        let loaded = load(&file, length);
        assert_eq!((loaded.number, &loaded.out[16..19], &loaded.store), (0, &[0, length as u64, 0][..], &start));
        assert_eq!(told(HouseFile::load(&file, None, Limits::default())), Ok(()));
        // One byte short of an output.
        let output = vec![0xEE; file.len() - 1];
        let short = calls::house_store(&start, &[0; 520], &output, &marks());
        assert_eq!((short.number, short.out, short.output), (112, marks(), output));
    }
}

#[test]
fn any_one_changed_byte_is_refused_by_131_and_nothing_is_touched() {
    let (stream, _) = capture();
    let mut file = HouseFile::store(&stream, None).expect("the capture");
    let (mut store, mut first, mut second, mut out) = (vec![0xEE; 1_024], [0xABCD; 60], [0xBCDE; 90], marks());
    let mut number = |file: &[u8]| {
        let (store, first, second) = (store.as_mut_ptr(), first.as_mut_ptr(), second.as_mut_ptr());
        // SAFETY: every pointer is to a buffer of the given length, and no two overlap.
        unsafe {
            let (at, length) = (file.as_ptr(), file.len());
            ffi::dbn_house_load(at, length, store, 1_024, &[0; 520], first, 60, second, 90, &mut out)
        }
    };
    for place in 0..file.len() {
        let was = file[place];
        for byte in (0..=255).filter(|&byte| byte != was) {
            file[place] = byte;
            assert_eq!(number(&file), 131, "byte {place} changed from {was} to {byte}");
        }
        file[place] = was;
    }
    let kept = (&store[..], first, second, out) == (&[0xEE; 1_024][..], [0xABCD; 60], [0xBCDE; 90], marks());
    assert!(kept, "store, tables and out");
}

#[test]
fn a_word_of_zeros_and_one_of_ones_are_alike_to_the_sums() {
    let mut start = start_of(700);
    start[300..302].fill(0);
    let mut file = pack(&start);
    file[304..306].fill(0xFF);
    let loaded = load(&file, 700);
    assert_eq!((loaded.number, &loaded.store[300..302]), (0, &[0xFF, 0xFF][..]), "two bytes that are skipped");
    // In the filler they are seen all the same, and so they are at odd places, which are parts of two words.
    file[1_000..1_002].fill(0xFF);
    assert_eq!(load(&file, 700), untouched(133, 700));
    let mut file = pack(&start);
    file[1_001..1_003].fill(0xFF);
    assert_eq!(load(&file, 700), untouched(131, 700));
}

/// A fault in one block of a file: its number, and what makes it.
type Fault = (u32, fn(&mut [u8]));

/// The faults that any block can have, and those of the last one.
const FAULTS: [Fault; 5] = [
    (131, |block| block[CHECK] ^= 1),
    (131, |block| block[CHECK + 3] ^= 0x80),
    (132, |block| sealed(block, |block| put_word(block, 0, 7))),
    (133, |block| sealed(block, |block| put_word(block, 2, 0))),
    (133, |block| sealed(block, |block| put_word(block, 2, 505))),
];
const LAST_FAULTS: [Fault; 2] = [
    (133, |block| sealed(block, |block| block[4 + word(block, 2)] = 1)),
    (133, |block| sealed(block, |block| block[CHECK - 1] = 1)),
];

/// Changes a block and gives it the check words of its bytes, or keeps them wrong.
fn sealed(block: &mut [u8], change: impl Fn(&mut [u8])) {
    let sound = [word(block, CHECK), word(block, CHECK + 2)] == house::sums(block);
    change(block);
    if sound {
        seal(block);
    }
}

/// Each fault of a file of three blocks, with its block.
fn faults() -> Vec<(usize, Fault)> {
    let any = (0..3).flat_map(|block| FAULTS.map(|fault| (block, fault)));
    any.chain(LAST_FAULTS.map(|fault| (2, fault))).collect()
}

fn put((block, (_, change)): (usize, Fault), file: &mut [u8]) {
    change(&mut file[BLOCK * block..][..BLOCK]);
}

#[test]
fn each_fault_has_its_number_and_the_first_of_two_wins() {
    let start = start_of(1_200);
    for first in faults() {
        let mut one = pack(&start);
        put(first, &mut one);
        assert_eq!(load(&one, 1_512), untouched(first.1 .0, 1_512), "block {}", first.0);
        assert_eq!(unpack(&one), Err(first.1 .0));
        for second in faults() {
            let mut two = one.clone();
            put(second, &mut two);
            // The first block decides, and in a block the check words, then the index, then the used count and the filler.
            let wanted = (first.0, first.1 .0).min((second.0, second.1 .0)).1;
            let undone = unpack(&two).is_ok();
            assert!(undone || load(&two, 1_512) == untouched(wanted, 1_512), "{} and {}", first.1 .0, second.1 .0);
        }
        // The length goes before all, and all before the store that is too short and the reader.
        one.push(0);
        assert_eq!(load(&one, 1_512), untouched(130, 1_512));
        let mut unread = pack(&[b"XBN", &start[3..]].concat());
        assert_eq!((load(&unread, 10).number, load(&unread, 1_512).number), (1, 10));
        put(first, &mut unread);
        assert_eq!([10, 1_512].map(|room| load(&unread, room)), [10, 1_512].map(|room| untouched(first.1 .0, room)));
    }
}

#[test]
fn lengths_that_no_file_has_are_refused_by_130() {
    let file = pack(&start_of(1_200));
    for length in (0..=1_536).filter(|length| length % 512 != 0 || *length == 0) {
        assert_eq!(load(&file[..length], 1_512), untouched(130, 1_512), "{length} bytes");
    }
    // Fewer blocks end in one that is full, which a last block may be.
    let loaded = load(&file[..1_024], 1_512);
    assert_eq!((loaded.number, &loaded.out[16..19]), (134, &[0, 1_008, 192][..]));
}

#[test]
fn used_counts_have_exact_edges() {
    let start = start_of(1_008);
    let with = |block: usize, used: usize| {
        let mut file = pack(&start);
        put_word(&mut file[BLOCK * block..], 2, used);
        file[BLOCK * block..][4 + used.min(PAYLOAD)..CHECK].fill(0);
        seal(&mut file[BLOCK * block..][..BLOCK]);
        load(&file, 1_008).number
    };
    assert_eq!([0, 1, 503, 504, 505, 508, 65_535].map(|used| with(0, used)), [133, 133, 133, 0, 133, 133, 133]);
    assert_eq!([0, 1, 503, 504, 505, 508, 65_535].map(|used| with(1, used)), [133, 134, 134, 0, 133, 133, 133]);
}

#[test]
fn a_store_that_is_too_short_is_1_and_keeps_what_it_held() {
    let start = start_of(700);
    let file = pack(&start);
    for room in [0, 1, 8, 503, 504, 699] {
        assert_eq!(load(&file, room), untouched(1, room), "a store of {room}");
    }
    for room in [700, 701, 1_008] {
        let loaded = load(&file, room);
        assert_eq!((loaded.number, &loaded.store[..700]), (0, &start[..]));
        assert!(loaded.store[700..].iter().all(|&byte| byte == 0xEE), "past the bytes held");
    }
}

#[test]
fn what_a_file_holds_is_read_as_held_bytes() {
    let (stream, _) = capture();
    let longer = [&stream[..], &[0]].concat();
    let mut magic = stream.clone();
    magic[0] = b'X';
    let mut schema = stream.clone();
    schema[8 + 16] = 200;
    let cases = [(&longer, 1, None), (&magic, 10, Some(0)), (&schema, 21, Some(16))];
    for (bytes, number, place) in cases {
        let (loaded, mut wanted) = (load(&pack(bytes), 600), untouched(number, 600));
        wanted.store[..bytes.len()].copy_from_slice(bytes);
        wanted.out[16..19].copy_from_slice(&[0, bytes.len() as u64, 0]);
        place.iter().for_each(|&place| wanted.out[ffi::PLACE] = place);
        assert_eq!(loaded, wanted);
        let place = place.map(|place| place as usize);
        assert_eq!(told(HouseFile::load(&pack(bytes), None, Limits::default())), Err((number, place)));
        assert_eq!(told(HouseFile::store(bytes, None)), Err((number, place)), "and is not stored");
        let stored = calls::house_store(bytes, &[0; 520], &[], &marks());
        assert_eq!((stored.number, &stored.out[..13]), (number, &marks::<16>()[..13]), "before 112");
    }
    // Tables that are too short: the rows needed, and the bytes stay.
    let short = calls::house_load(&pack(&stream), &[0; 590], &[0; 520], &[9; 35], &[], &marks());
    assert_eq!((short.number, &short.out[10..12], &short.out[16..19]), (3, &[6, 0][..], &[0, 590, 0][..]));
    assert_eq!((&short.store, &short.symbology), (&stream, &vec![9; 35]));
}

#[test]
fn a_start_that_is_not_whole_is_134() {
    let (stream, _) = capture();
    for length in 0..stream.len() {
        let part = &stream[..length];
        let output = [0xEE; 1_024];
        let stored = calls::house_store(part, &[0; 520], &output, &marks());
        assert_eq!((stored.number, stored.out, &stored.output[..]), (134, marks(), &output[..]), "{length} bytes");
        assert_eq!(told(HouseFile::store(part, None)), Err((134, None)));
        if length == 0 {
            continue;
        }
        let needed = if length < 8 { 8 - length } else { stream.len() - length };
        let (loaded, mut wanted) = (load(&pack(part), 600), untouched(134, 600));
        wanted.store[..length].copy_from_slice(part);
        wanted.out[16..19].copy_from_slice(&[0, length as u64, needed as u64]);
        assert_eq!(loaded, wanted, "{length} bytes");
        assert_eq!(told(HouseFile::load(&pack(part), None, Limits::default())), Err((134, None)));
    }
    // A store that has no room for what the prelude announces is 2, as in a feed.
    let loaded = load(&pack(&stream[..300]), 589);
    assert_eq!((loaded.number, &loaded.out[16..19], &loaded.store[..300]), (2, &[0, 300, 0][..], &stream[..300]));
}

#[test]
fn sixty_five_thousand_five_hundred_and_thirty_six_blocks_are_the_most() {
    let most = 65_536 * PAYLOAD;
    let limits = Limits { bytes: most, ..Limits::default() };
    let mut start = start_of(most);
    let file = HouseFile::store(&start, None).expect("as many blocks as a file may have");
    assert_eq!((file.len(), word(&file[33_553_920..], 0)), (33_554_432, 65_535));
    assert!(file == pack(&start), "the plain program's file");
    let loaded = HouseFile::load(&file, None, limits).expect("its file");
    assert!(loaded.start() == start, "the same bytes");
    let mut output = vec![0xEE; file.len() + BLOCK];
    let short = HouseFile::store_into(&start, None, &mut output[..33_554_431]);
    assert_eq!(told(short), Err((112, None)));
    // One byte more, and one block more: refused before the output, and after the reader.
    start.push(0);
    start[4..8].copy_from_slice(&(most as u32 - 7).to_le_bytes());
    assert_eq!(told(HouseFile::store_into(&start, None, &mut output)), Err((130, None)));
    assert_eq!(told(HouseFile::store(&start, None)), Err((130, None)));
    assert!(output.iter().all(|&byte| byte == 0xEE), "the output after refusals");
    start[8 + 16] = 200;
    assert_eq!(told(HouseFile::store(&start, None)), Err((21, Some(16))));
    let longer = [&file[..], &file[..BLOCK]].concat();
    assert_eq!(told(HouseFile::load(&longer, None, limits)), Err((130, None)));
}

#[test]
fn limits_and_sheets_are_as_in_a_feed() {
    let limits = |bytes, rows| Limits { bytes, rows };
    let (stream, _) = capture();
    let file = pack(&stream);
    let told_by = |limits| told(HouseFile::load(&file, None, limits));
    assert_eq!([590, 589, 8].map(|bytes| told_by(limits(bytes, 6))), [Ok(()), Err((2, None)), Err((2, None))]);
    assert_eq!([6, 5, 0].map(|rows| told_by(limits(590, rows))), [Ok(()), Err((3, None)), Err((3, None))]);
    // Version 4 wants a sheet, but for what is wrong with the file or the prelude.
    let stream = stream_of(4, &shapes::block4(&shapes::daily()));
    let mut file = pack(&stream);
    let no_sheet = Err(RefusalKind::NoSheet);
    let load = |file: &[u8], sheet: Option<&Sheet>| {
        HouseFile::load(file, sheet, Limits::default()).map(|_| ()).map_err(Refusal::kind)
    };
    assert_eq!(load(&file, None), no_sheet);
    assert_eq!(load(&file, Some(&shapes::sheet())), Ok(()));
    assert_eq!(HouseFile::store(&stream, None).map(|_| ()).map_err(Refusal::kind), no_sheet);
    file[600] ^= 1;
    assert_eq!(load(&file, None), Err(RefusalKind::HouseCheck));
    file[600] ^= 1;
    file[4] = b'X';
    seal(&mut file[..BLOCK]);
    assert_eq!(load(&file, None), Err(RefusalKind::Magic));
}

#[test]
fn made_and_bent_files_are_judged_as_by_a_plain_program() {
    let (mut met, mut count) = (BTreeMap::<u32, usize>::new(), fuzz::Count::default());
    for seed in 0..6_000 {
        let mut r = gen::Rng::new(seed);
        let sheet = if r.one_in(2) { gen::plain_sheet() } else { gen::Sheet::random(&mut r) };
        house::files(&mut r, &sheet, &mut count);
        let version = 1 + r.below(4) as u8;
        let mut file = pack(&gen::stream(&mut r, &sheet, version));
        house::bend(&mut r, &mut file);
        *met.entry(house::loaded(&mut r, &sheet, &file, &mut count)).or_default() += 1;
    }
    let often = [0, 1, 3, 130, 131, 132, 133].map(|number| met.get(&number).copied().unwrap_or(0));
    assert!(often.iter().all(|&count| count > 60), "{met:?}");
}
