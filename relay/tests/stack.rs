//! What the C functions need of the stack, as the header says it: little for an ordinary layout, more for its marks, and a large
//! frame only for marks far from the start and for many structs. `cargo test --release --test stack -- --nocapture` prints the bytes.
mod common;
#[allow(dead_code)]
#[path = "../measure/shapes.rs"]
mod shapes;
#[allow(dead_code)]
#[path = "../measure/written.rs"]
mod written;

use dbn_start::{
    check_layout_plain, ffi, is_date, is_text, prelude, write_layout, Day, Frames, HouseFile, Layout, Sheet, Tables,
};
use shapes::{sheet, tiled, Order};
use std::ffi::c_void;
use written::Written;

/// The four bounds of the header.
const SMALL: usize = 4 << 10;
const ORDINARY: usize = 32 << 10;
const MARKED: usize = 64 << 10;
const LARGE: usize = 320 << 10;

/// The painted stack, in words.
const WORDS: usize = 1 << 17;
const PAINT: u64 = 0xA5A5_5A5A_C3C3_3C3C;

extern "C" {
    fn pthread_attr_init(attr: *mut [u64; 16]) -> i32;
    fn pthread_attr_setstack(attr: *mut [u64; 16], stack: *mut c_void, size: usize) -> i32;
    fn pthread_create(
        thread: *mut usize,
        attr: *const [u64; 16],
        start: extern "C" fn(*mut c_void) -> *mut c_void,
        argument: *mut c_void,
    ) -> i32;
    fn pthread_join(thread: usize, value: *mut *mut c_void) -> i32;
}

extern "C" fn start(work: *mut c_void) -> *mut c_void {
    // SAFETY: `deep` lends a closure of this type until the thread has ended.
    unsafe { (*work.cast::<&mut dyn FnMut()>())() };
    std::ptr::null_mut()
}

/// How deep a painted stack was touched, in bytes.
fn deep(mut work: &mut dyn FnMut()) -> usize {
    let mut stack = vec![[PAINT; 2]; WORDS / 2 + 256];
    // On a page's start.
    let at = stack.as_mut_ptr().cast::<u8>();
    let at = at.wrapping_add(at.align_offset(4096));
    let (mut attr, mut thread) = ([0; 16], 0);
    // SAFETY: the attribute has more room than any platform's, the stack outlives the thread, which is joined, and so does the
    // closure; nothing else looks at either before that.
    unsafe {
        assert_eq!(pthread_attr_init(&mut attr), 0);
        assert_eq!(pthread_attr_setstack(&mut attr, at.cast(), WORDS * 8), 0);
        assert_eq!(pthread_create(&mut thread, &attr, start, (&raw mut work).cast()), 0);
        assert_eq!(pthread_join(thread, std::ptr::null_mut()), 0);
        let words = std::slice::from_raw_parts(at.cast::<u64>(), WORDS);
        WORDS * 8 - words.iter().take_while(|&&word| word == PAINT).count() * 8
    }
}

/// What a call needs beyond an empty thread.
fn needs(what: &str, most: usize, work: &mut dyn FnMut()) -> usize {
    let bytes = deep(work).saturating_sub(deep(&mut || {}));
    println!("{what}: {bytes} bytes of stack");
    assert!(bytes <= most, "{what}: {bytes} bytes of stack, and the header says {most}");
    bytes
}

fn block(layout: &[u8]) -> impl FnMut() + use<> {
    let (block, sheet, mut out) = (shapes::block4(layout), sheet(), [0; 16]);
    let mut table = vec![0; 9 * layout.len()];
    move || {
        // SAFETY: every pointer is to a buffer of the given length, and no two overlap.
        let number = unsafe {
            let (none, rows) = (std::ptr::NonNull::dangling().as_ptr(), table.as_mut_ptr());
            ffi::dbn_block(4, block.as_ptr(), block.len(), sheet.numbers(), none, 0, rows, table.len(), &mut out)
        };
        assert_eq!(number, 0);
    }
}

fn read(layout: &[u8]) -> impl FnMut() + '_ {
    let (sheet, mut table) = (sheet(), Tables::default());
    // The table grows before it is measured.
    assert!(Layout::read(layout, 71, &sheet, &mut table).is_ok());
    move || assert!(Layout::read(layout, 71, &sheet, &mut table).is_ok())
}

fn write(layout: &[u8]) -> impl FnMut() + '_ {
    let (sheet, mut table) = (sheet(), Tables::default());
    let rows = Layout::read(layout, 71, &sheet, &mut table).expect("an accepted layout").numbers().to_vec();
    let mut output = vec![0; layout.len()];
    move || assert!(write_layout(&rows, layout, 1, 71, &sheet, &mut output).is_ok())
}

/// A whole stream start of a version, fed at once.
fn feed(version: u8, block: &[u8]) -> impl FnMut() {
    let (stream, sheet, mut out) = (shapes::stream_of(version, block), sheet(), [0; 20]);
    let (mut store, mut first, mut second) =
        (vec![0; stream.len()], vec![0; ffi::SYMBOLOGY_ROW * block.len()], vec![0; ffi::LAYOUT_ROW * block.len()]);
    move || {
        // SAFETY: every pointer is to a buffer of the given length, and no two overlap.
        let number = unsafe {
            ffi::dbn_feed(
                0,
                store.as_mut_ptr(),
                store.len(),
                stream.as_ptr(),
                stream.len(),
                sheet.numbers(),
                first.as_mut_ptr(),
                first.len(),
                second.as_mut_ptr(),
                second.len(),
                &mut out,
            )
        };
        assert_eq!((number, out[18]), (0, 0));
    }
}

/// A stream start of a version, stored in a house file.
fn house_store(version: u8, block: &[u8]) -> impl FnMut() {
    let (stream, sheet, mut out) = (shapes::stream_of(version, block), sheet(), [0; 16]);
    let mut file = vec![0; stream.len().div_ceil(ffi::HOUSE_PAYLOAD) * ffi::HOUSE_BLOCK];
    move || {
        // SAFETY: every pointer is to a buffer of the given length, and no two overlap.
        let number = unsafe {
            let (at, n, on) = (stream.as_ptr(), stream.len(), file.len());
            ffi::dbn_house_store(at, n, sheet.numbers(), file.as_mut_ptr(), on, &mut out)
        };
        assert_eq!((number, out[0]), (0, file.len() as u64));
    }
}

/// The house file of a stream start of a version, loaded.
fn house_load(version: u8, block: &[u8]) -> impl FnMut() {
    let (stream, sheet, mut out) = (shapes::stream_of(version, block), sheet(), [0; 20]);
    let file = HouseFile::store(&stream, &sheet).expect("an accepted start");
    let (mut store, mut first, mut second) =
        (vec![0; stream.len()], vec![0; ffi::SYMBOLOGY_ROW * block.len()], vec![0; ffi::LAYOUT_ROW * block.len()]);
    move || {
        // SAFETY: every pointer is to a buffer of the given length, and no two overlap.
        let number = unsafe {
            ffi::dbn_house_load(
                file.as_ptr(),
                file.len(),
                store.as_mut_ptr(),
                store.len(),
                sheet.numbers(),
                first.as_mut_ptr(),
                first.len(),
                second.as_mut_ptr(),
                second.len(),
                &mut out,
            )
        };
        assert_eq!((number, out[18]), (0, 0));
    }
}

/// A whole stream start of a version, written from what was read of its block.
fn write_block(version: u8, block: &[u8]) -> impl FnMut() {
    let mut written = Written::of(version, block, sheet());
    move || assert_eq!(written.write().0, 0)
}

/// The names of made rows: the first bytes of a layout, and the first symbol of a block.
fn names(layout: &[u8], block: &[u8]) {
    let (mut one, mut two) = ([0; 2], [0; 2]);
    // SAFETY: the pointers are to buffers of the given length.
    let numbers = unsafe {
        let (of_layout, of_block) = ([14, 0, 2, 0, 0, 0, 0, 0, 0], [0, 108, 4, 0, 0, 0]);
        [
            ffi::dbn_layout_name(layout.as_ptr(), layout.len(), of_layout.as_ptr(), 9, 0, &mut one),
            ffi::dbn_symbology_name(block.as_ptr(), block.len(), of_block.as_ptr(), 6, 0, &mut two),
        ]
    };
    assert_eq!((numbers, one, two), ([0, 0], [0, 2], [108, 4]));
}

/// A record of the most bytes, in two pieces. The store is no part of the stack that is measured.
fn record() -> impl FnMut() {
    let (mut frames, record) = (Box::new(Frames::new()), vec![255; ffi::FRAME_MOST]);
    move || {
        assert_eq!(frames.next(&mut &record[..500]), Ok(None));
        assert!(frames.next(&mut &record[500..]).is_ok_and(|frame| frame == Some(&record)));
    }
}

/// A layout, what it is called, and what a call on it may need.
type Measured = (&'static str, Vec<u8>, usize);

/// A call, what it is called, and what it may need.
type Call<'a> = (String, usize, Box<dyn FnMut() + Send + 'a>);

/// Each entry on what the header names, with its bound.
fn calls<'a>(sheet: &'a Sheet, layouts: &'a [Measured], symbols: &'a [u8]) -> Vec<Call<'a>> {
    let mut calls: Vec<Call> = vec![
        ("dbn_date".into(), SMALL, Box::new(|| assert!(is_date(20240229)))),
        ("dbn_day".into(), SMALL, Box::new(|| assert_eq!(Day::LAST.yyyymmdd(), 99991231))),
        ("dbn_text".into(), SMALL, Box::new(|| assert!(is_text("Съешь ещё этих мягких булок".as_bytes())))),
        ("dbn_prelude".into(), SMALL, Box::new(|| assert!(prelude(b"DBN\x03\x64\0\0\0").is_ok()))),
        ("the names".into(), SMALL, Box::new(|| names(&layouts[0].1, symbols))),
        ("dbn_frame".into(), SMALL, Box::new(record())),
        ("dbn_feed, version 3".into(), ORDINARY, Box::new(feed(3, symbols))),
        ("dbn_house_store, version 3".into(), ORDINARY, Box::new(house_store(3, symbols))),
        ("dbn_house_load, version 3".into(), ORDINARY, Box::new(house_load(3, symbols))),
        ("dbn_write_block, version 3".into(), ORDINARY, Box::new(write_block(3, symbols))),
    ];
    for (what, layout, most) in layouts {
        let mut call = |name: &str, most: usize, work| calls.push((format!("{name}, {what}"), most, work));
        call("dbn_block", *most, Box::new(block(layout)));
        call("dbn_feed", *most, Box::new(feed(4, &shapes::block4(layout))));
        call("dbn_house_store", *most, Box::new(house_store(4, &shapes::block4(layout))));
        call("dbn_house_load", *most, Box::new(house_load(4, &shapes::block4(layout))));
        call("dbn_layout", *most, Box::new(read(layout)));
        call("dbn_write_layout", *most, Box::new(write(layout)));
        call("dbn_write_block", *most, Box::new(write_block(4, &shapes::block4(layout))));
        call("dbn_tidy", *most, Box::new(|| assert!(Layout::tidy(layout, 71, sheet).is_ok())));
        let marked = if *most == ORDINARY { MARKED } else { LARGE };
        call("dbn_layout_plain", marked, Box::new(|| assert!(check_layout_plain(layout, 71, sheet).is_ok())));
    }
    calls
}

/// Layouts with their bounds, and a version 3 block that has one letter beyond ASCII.
fn inputs() -> (Vec<Measured>, Vec<u8>) {
    let layouts = vec![
        ("ordinary", shapes::daily(), ORDINARY),
        ("64 structs", shapes::structs(64), ORDINARY),
        ("4,096 structs", shapes::structs(4_096), ORDINARY),
        ("60,000 structs", shapes::structs(60_000), LARGE),
        ("3,600 fields in reverse", tiled(3_600, 1, 1, Order::Reverse), LARGE),
    ];
    (layouts, shapes::block(3, 70, &shapes::lettered(70, 100, "é")))
}

#[test]
fn each_call_stays_within_the_header_s_bounds() {
    let ((layouts, symbols), sheet) = (inputs(), sheet());
    for (what, most, mut work) in calls(&sheet, &layouts, &symbols) {
        needs(&what, most, &mut work);
    }
}

#[test]
fn threads_of_64_and_320_kib_are_enough() {
    let ((layouts, symbols), sheet) = (inputs(), sheet());
    for (what, most, work) in calls(&sheet, &layouts, &symbols) {
        let size = if most == LARGE { LARGE } else { 64 << 10 };
        let done = std::thread::scope(|threads| {
            std::thread::Builder::new().stack_size(size).spawn_scoped(threads, work).map(|thread| thread.join())
        });
        assert!(matches!(done, Ok(Ok(()))), "{what} on a thread of {size} bytes");
    }
}
