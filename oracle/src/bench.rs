//! bench: the C functions beside the crate on the same bytes. Medians of the thread's own CPU time, the two taking turns.
use crate::{
    bench_shapes::{beside, shapes, written::Written},
    of_crate::dbn::{metadata, Fsm},
    walk::ROW,
};
use ::dbn::encode::dbn::MetadataEncoder;
use dbn_start::{ffi, Layout};
use std::hint::black_box;

pub fn run() {
    let numbers = *shapes::sheet().numbers();
    ::dbn::v4::fields::install(|id| {
        (Some(numbers[id as usize]).filter(|&size| size > 0), numbers[256 + id as usize] != 0)
    });
    println!("here, crate dbn 0.73.0, and here as a part of the crate's time");
    let (v3, v1) = (shapes::symbology(71, 1000, 100, 4), shapes::symbology(22, 1000, 100, 4));
    let inner = shapes::daily();
    let days = [
        ("version 3, width 71, 1,000 symbols, 100 mappings of 4", 3, shapes::block(3, 71, &v3)),
        ("version 1, width 22, the same", 1, shapes::block(1, 22, &v1)),
        ("version 4, 20 records with 405 fields, no symbols", 4, shapes::block4(&inner)),
        ("version 3, no symbols", 3, shapes::block(3, 71, &[0; 16])),
    ];
    days.iter().for_each(|(what, version, block)| read(what, *version, block));
    layouts(&inner);
    days.iter().for_each(|(what, version, block)| write(what, *version, block));
}

fn tell(what: &str, bytes: usize, (here, theirs): (f64, f64)) {
    println!("{what}, {bytes} bytes: {:.2} us, {:.2} us, {:.2}", here / 1e3, theirs / 1e3, here / theirs);
}

/// `dbn_block` beside `process()`, and `dbn_feed` of the whole stream beside a new state machine, `write_all` and `process()`.
fn read(what: &str, version: u8, block: &[u8]) {
    let sheet = shapes::sheet();
    let stream = shapes::stream_of(version, block);
    let mut out = [0; 20];
    let (mut symbology, mut layout, mut store) = (vec![0; ROW * 4000], vec![0; 9 * 4000], vec![0; stream.len()]);
    // The crate's process() alone: the state machine and its bytes are made outside the clock, so it is timed by hand.
    let mut theirs = Vec::new();
    let mut here = Vec::new();
    for _ in 0..501 {
        let mut fsm = Fsm::new(version);
        fsm.write_all(black_box(&stream));
        let start = crate::bench_shapes::thread_time();
        let read = black_box(fsm.process());
        theirs.push(crate::bench_shapes::thread_time() - start);
        assert!(matches!(read, ::dbn::decode::dbn::fsm::ProcessResult::Metadata(_)), "{what}: the crate accepts");
        drop(read);
        let start = crate::bench_shapes::thread_time();
        // SAFETY: every pointer is to a buffer of the given length, and no two overlap.
        let number = unsafe {
            let block = black_box(block);
            ffi::dbn_block(
                version,
                block.as_ptr(),
                block.len(),
                sheet.numbers(),
                symbology.as_mut_ptr(),
                symbology.len(),
                layout.as_mut_ptr(),
                layout.len(),
                out.first_chunk_mut().expect("sixteen numbers"),
            )
        };
        here.push(crate::bench_shapes::thread_time() - start);
        assert_eq!(number, 0, "{what}: accepted here");
    }
    let medians = (crate::bench_shapes::median(here), crate::bench_shapes::median(theirs));
    tell(&format!("dbn_block and process(): {what}"), block.len(), medians);
    let both = beside(
        || {
            let stream = black_box(&stream);
            // SAFETY: every pointer is to a buffer of the given length, and no two overlap.
            let number = unsafe {
                ffi::dbn_feed(
                    0,
                    store.as_mut_ptr(),
                    store.len(),
                    stream.as_ptr(),
                    stream.len(),
                    sheet.numbers(),
                    symbology.as_mut_ptr(),
                    symbology.len(),
                    layout.as_mut_ptr(),
                    layout.len(),
                    &mut out,
                )
            };
            assert_eq!((number, out[18]), (0, 0));
        },
        || {
            let mut fsm = Fsm::new(version);
            fsm.write_all(black_box(&stream));
            let _ = black_box(fsm.process());
        },
    );
    tell(&format!("dbn_feed and new, write_all, process(), drop: {what}"), stream.len(), both);
}

/// `dbn_write_block` beside the crate's encoder, both with room for the bytes.
fn write(what: &str, version: u8, block: &[u8]) {
    let theirs = metadata(&shapes::stream_of(version, block)).expect("the crate reads it");
    let (mut here, mut encoded) = (Written::of(version, block, shapes::sheet()), Vec::with_capacity(block.len() + 16));
    let both = beside(
        || assert_eq!(black_box(&mut here).write().0, 0),
        || {
            encoded.clear();
            MetadataEncoder::new(&mut encoded).encode(black_box(&theirs)).expect("the crate writes it");
        },
    );
    // From version 3 on the crate fills a block up to a multiple of 8.
    assert_eq!(here.write().1[8..], encoded[8..][..block.len()], "the same bytes");
    tell(&format!("dbn_write_block (checks all that it is lent) and the crate's encoder: {what}"), block.len(), both);
}

/// `dbn_layout` beside `wire::decode`, and `dbn_write_layout` beside `wire::encode`.
fn layouts(bytes: &[u8]) {
    let sheet = shapes::sheet();
    let mut out = [0; 16];
    let mut table = vec![0; 9 * 4000];
    let both = beside(
        || {
            let bytes = black_box(bytes);
            // SAFETY: every pointer is to a buffer of the given length, and no two overlap.
            let number = unsafe {
                ffi::dbn_layout(
                    bytes.as_ptr(),
                    bytes.len(),
                    71,
                    sheet.numbers(),
                    table.as_mut_ptr(),
                    table.len(),
                    &mut out,
                )
            };
            assert_eq!(number, 0);
        },
        || ::dbn::layout_decode(black_box(bytes), 71).expect("the crate reads it"),
    );
    tell("dbn_layout and wire::decode: that layout", bytes.len(), both);
    let mut table = dbn_start::Tables::default();
    let read = Layout::read(bytes, 71, &sheet, &mut table).expect("an accepted layout");
    let theirs = ::dbn::layout_decode(bytes, 71).expect("the crate reads it");
    let (mut output, mut written) = (vec![0; bytes.len()], Vec::with_capacity(bytes.len()));
    let both = beside(
        || dbn_start::write_layout(black_box(read.numbers()), bytes, read.version(), 71, &sheet, &mut output),
        || {
            written.clear();
            ::dbn::layout_encode(&mut written, black_box(&theirs)).expect("the crate writes it");
        },
    );
    assert_eq!(output, written, "the same bytes");
    tell("dbn_write_layout (checks all rows) and wire::encode: that layout", bytes.len(), both);
}
