//! A slice of length 0 may be a null pointer.
mod common;
use common::{hex, p10, plain, stream_of};
use dbn_start::ffi;
use std::ptr::{null, null_mut};

#[test]
fn every_function_takes_null_at_length_0() {
    let sheet = plain();
    let (sheet, mut out, mut name) = (sheet.numbers(), [7; 16], [7; 2]);
    // SAFETY: every slice has length 0, and its pointer is not read; sheet and out are whole.
    unsafe {
        assert_eq!(ffi::dbn_text(null(), 0), 1);
        let mut told = [7; 4];
        assert_eq!((ffi::dbn_prelude(null(), 0, &mut told), told), (0, [8, 0, 0, 0]));
        assert_eq!(ffi::dbn_block(3, null(), 0, sheet, null_mut(), 0, null_mut(), 0, &mut out), 13);
        assert_eq!(ffi::dbn_write_layout(null(), 0, null(), 0, 1, 71, sheet, null_mut(), 0, &mut out), 96);
        let (start, fields) = (ffi::dbn_write_block, &[0; 16]);
        assert_eq!(start(3, fields, null(), 0, 0, null(), 0, null(), 0, sheet, null_mut(), 0, &mut out), 112);
        assert_eq!(start(3, fields, null(), 0, 1, null(), 0, null(), 0, sheet, null_mut(), 0, &mut out), 110);
        assert_eq!(out, [7; 16]);
        assert_eq!(ffi::dbn_layout(null(), 0, 71, sheet, null_mut(), 0, &mut out), 50);
        assert_eq!(std::mem::replace(&mut out[ffi::PLACE], 7), 0, "the place");
        for verdict in [ffi::dbn_layout_plain, ffi::dbn_tidy] {
            assert_eq!(verdict(null(), 0, 71, sheet, &mut out), 50);
            assert_eq!(std::mem::replace(&mut out[ffi::PLACE], 7), 0, "the place");
        }
        assert_eq!(ffi::dbn_block(9, null(), 0, sheet, null_mut(), 0, null_mut(), 0, &mut out), 11);
        assert_eq!(std::mem::replace(&mut out[ffi::PLACE], 7), 3, "the place in a prelude");
        assert_eq!(out, [7; 16]);
        assert_eq!((ffi::dbn_symbology_name(null(), 0, null(), 0, 0, &mut name), name), (90, [0, 0]));
        assert_eq!((ffi::dbn_layout_name(null(), 0, null(), 0, 0, &mut name), name), (90, [0, 0]));
        let mut fed = [7; 20];
        let (number, store) = (ffi::dbn_feed, null_mut());
        assert_eq!(number(0, store, 0, null(), 0, sheet, null_mut(), 0, null_mut(), 0, &mut fed), 2);
        assert_eq!(fed[16..19], [0, 0, 0]);
        let (mut fed, nothing, none) = ([7; 20], null_mut(), null_mut());
        assert_eq!(ffi::dbn_house_load(null(), 0, nothing, 0, sheet, none, 0, none, 0, &mut fed), 130);
        assert_eq!(ffi::dbn_house_store(null(), 0, sheet, nothing, 0, &mut out), 134);
        assert_eq!((fed, out), ([7; 20], [7; 16]));
        let mut told = [7; 5];
        assert_eq!((ffi::dbn_frame(0, null_mut(), 0, null(), 0, &mut told), told), (101, [0, 0, 0, 7, 7]));
        assert_eq!((ffi::dbn_frame(9, null_mut(), 0, null(), 0, &mut told), told), (1, [0, 9, 0, 7, 7]));
    }
}

#[test]
fn null_tables_are_enough_where_there_are_no_rows() {
    let (sheet, mut out) = (plain(), [7; 16]);
    let empty = hex("0100 000000000000");
    let (mut output, mut block) = ([0xEE; 8], p10([0; 3])[..104].to_vec());
    block.extend([0; 16]);
    let stream = stream_of(2, &block);
    let (mut written, mut fields) = (stream.clone(), [0; 16]);
    (fields[8], fields[12]) = (3, 9);
    written.fill(0xEE);
    let (mut store, mut fed) = (stream.clone(), [7; 20]);
    let (length, held) = (store.len(), store.len() as u64);
    // SAFETY: every pointer is to a buffer of the given length, or null at length 0, and no two overlap.
    unsafe {
        assert_eq!(ffi::dbn_layout(empty.as_ptr(), 8, 71, sheet.numbers(), null_mut(), 0, &mut out), 0);
        assert_eq!((out[9], out[11]), (1, 0));
        let at = output.as_mut_ptr();
        assert_eq!(ffi::dbn_write_layout(null(), 0, null(), 0, 1, 71, sheet.numbers(), at, 8, &mut out), 0);
        assert_eq!((out[0], &output[..]), (8, &empty[..]));
        let (bytes, n) = (block.as_ptr(), block.len());
        assert_eq!(ffi::dbn_block(2, bytes, n, sheet.numbers(), null_mut(), 0, null_mut(), 0, &mut out), 0);
        assert_eq!((out[8], out[10], out[11]), (3, 0, 0));
        let (sheet, at) = (sheet.numbers(), written.as_mut_ptr());
        let start = ffi::dbn_write_block;
        assert_eq!(start(2, &fields, null(), 0, 0, null(), 0, null(), 0, sheet, at, length, &mut out), 0);
        assert_eq!(out[0], held);
        let at = store.as_mut_ptr();
        let number = ffi::dbn_feed(held, at, length, null(), 0, sheet, null_mut(), 0, null_mut(), 0, &mut fed);
        assert_eq!((number, &fed[16..19]), (0, &[0, held, 0][..]));
    }
    assert_eq!(store, stream);
    house_with_null_tables(&stream, sheet.numbers());
    // An end of 0 is absent, and is written as the largest number.
    written[8 + 26..8 + 34].iter_mut().for_each(|byte| *byte = !*byte);
    assert_eq!(written, stream);
}

/// A start without rows in a house file. An output and a store of length 0 may be null too.
fn house_with_null_tables(stream: &[u8], sheet: &[u16; 520]) {
    let (mut file, mut store, mut out, mut fed) = ([0; 512], vec![0; stream.len()], [7; 16], [7; 20]);
    let (at, n, held) = (stream.as_ptr(), stream.len(), stream.len() as u64);
    // SAFETY: every pointer is to a buffer of the given length, or null at length 0, and no two overlap.
    unsafe {
        assert_eq!(ffi::dbn_house_store(at, n, sheet, null_mut(), 0, &mut out), 112);
        assert_eq!((ffi::dbn_house_store(at, n, sheet, file.as_mut_ptr(), 512, &mut out), out[0]), (0, 512));
        let (load, at, none) = (ffi::dbn_house_load, file.as_ptr(), null_mut());
        assert_eq!(load(at, 512, null_mut(), 0, sheet, none, 0, none, 0, &mut fed), 1);
        assert_eq!(fed, [7; 20]);
        assert_eq!(load(at, 512, store.as_mut_ptr(), n, sheet, none, 0, none, 0, &mut fed), 0);
    }
    assert_eq!((&store[..], &fed[16..19]), (stream, &[0, held, 0][..]));
}

#[test]
fn a_null_piece_is_enough_where_a_record_is_held() {
    let (mut store, mut out) = ([5; 20], [7; 5]);
    // SAFETY: the store is a buffer of the given length, and the piece has length 0.
    unsafe {
        assert_eq!((ffi::dbn_frame(0, store.as_mut_ptr(), 20, null(), 0, &mut out), out), (0, [0, 0, 16, 7, 7]));
        assert_eq!((ffi::dbn_frame(16, store.as_mut_ptr(), 20, null(), 0, &mut out), out), (0, [0, 16, 4, 7, 7]));
        assert_eq!((ffi::dbn_frame(20, store.as_mut_ptr(), 20, null(), 0, &mut out), out), (0, [0, 20, 0, 20, 5]));
    }
    assert_eq!(store, [5; 20]);
}
