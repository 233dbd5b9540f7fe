//! The start of a DBN stream: prelude, metadata, symbology and layout, and the records after it in versions 1 to 3, read and written by proved code.
//!
//! The reading and the writing are done by the C functions of the library `dbn_c` ([`ffi`]), whose promises are proved. This package lends
//! them their buffers and gives back names as parts of the caller's own bytes. [`Feed`] reads a stream's start from a source or takes it in pieces,
//! and [`Frames`] takes the records after it, [`Block`] and [`Layout`] take what is already whole, and [`Refusal`] tells what was refused, and at which byte.
//! The dates of an interval are [`Day`]s, which can be subtracted, and an interval tells its [`Mapping`]. [`Columns`] has the symbology by column.
//! [`Layout::tidy`] tells whether a layout is in the plain form that [`write_layout`] gives.
//! [`BlockBuilder`] writes the start of a stream, from owned values or from a block that was read. [`HouseFile`] keeps an accepted start on disk.
//!
//! Nothing here stands in for what is missing: where the library broke its promise, the call panics and says which promise.
#![warn(missing_docs)]

#[cfg(not(target_pointer_width = "64"))]
compile_error!("the library dbn_c is for machines whose size_t has 64 bits");

/// The README's examples compile.
#[cfg(doctest)]
#[doc = include_str!("../README.md")]
struct Readme;

mod block;
mod day;
mod feed;
pub mod ffi;
mod frames;
mod house;
mod layout;
mod refusal;
mod sheet;
mod symbology;
mod tables;
mod write;

pub use block::{Block, Fields};
pub use day::Day;
pub use feed::{Fed, Feed, Step};
pub use frames::Frames;
pub use house::HouseFile;
pub use layout::{check_layout_plain, write_layout, Field, Label, LabelDef, Layout, RecordLayout, StructLayout};
pub use refusal::{Refusal, RefusalKind};
pub use sheet::{Sheet, SheetIds};
pub use symbology::{Columns, Interval, Mapping};
pub use tables::{Limits, Tables};
pub use write::{BlockBuilder, LayoutRows, MappingInterval, SymbolMapping};

/// What the first bytes of a stream say.
#[derive(Debug, Clone, Copy, PartialEq, Eq)]
pub enum Prelude {
    /// So many bytes are missing from the prelude.
    Needs(usize),
    /// The prelude is whole.
    Whole {
        /// The stream's version, 1 to 4.
        version: u8,
        /// The length of the block that follows.
        length: u32,
    },
}

/// Judges the first 8 bytes of a stream. Bytes past them are not looked at.
pub fn prelude(bytes: &[u8]) -> Result<Prelude, Refusal> {
    let mut out = [0; 4];
    // SAFETY: the pointer and length are those of a slice, and `out` is ours.
    let number = unsafe { ffi::dbn_prelude(bytes.as_ptr(), bytes.len(), &mut out) };
    Refusal::unless_read(number, out[ffi::PRELUDE_PLACE])?;
    Ok(match out {
        [0, version, length, _] => Prelude::Whole {
            version: promise(version, "a prelude's version"),
            length: promise(length, "a block's length"),
        },
        [missing, ..] => Prelude::Needs(promise(missing, "bytes missing from a prelude")),
    })
}

/// Whether the bytes are UTF-8.
pub fn is_text(bytes: &[u8]) -> bool {
    // SAFETY: the pointer and length are those of a slice.
    unsafe { ffi::dbn_text(bytes.as_ptr(), bytes.len()) == 1 }
}

/// Whether the number is a date: year x 10000 + month x 100 + day, years 0 to 9999, Gregorian rule. [`Day::from_yyyymmdd`] gives its day.
pub fn is_date(yyyymmdd: u32) -> bool {
    Day::from_yyyymmdd(yyyymmdd).is_some()
}

/// A number of the library's as the type that it is promised to fit.
pub(crate) fn promise<T: TryFrom<N>, N: Copy + std::fmt::Display>(number: N, what: &str) -> T {
    match T::try_from(number) {
        Ok(number) => number,
        Err(_) => panic!("the library dbn_c broke its promise: {what} is {number}"),
    }
}

/// The part of `bytes` that a name function answered.
pub(crate) fn part(bytes: &[u8], number: u32, [start, length]: [u64; 2]) -> Result<&str, Refusal> {
    Refusal::unless_accepted(number)?;
    let (start, length): (usize, usize) = (promise(start, "a name's start"), promise(length, "a name's length"));
    match bytes.get(start..).and_then(|rest| rest.get(..length)) {
        Some(name) => Ok(text(name)),
        None => panic!("the library dbn_c broke its promise: a name of {length} bytes at {start} of {}", bytes.len()),
    }
}

/// An accepted text, which is UTF-8.
pub(crate) fn text(bytes: &[u8]) -> &str {
    match std::str::from_utf8(bytes) {
        Ok(text) => text,
        Err(error) => panic!("the library dbn_c broke its promise: an accepted text is not UTF-8 ({error})"),
    }
}

/// The name of a row that has one.
pub(crate) fn named(name: Result<&str, Refusal>) -> &str {
    match name {
        Ok(name) => name,
        Err(refusal) => panic!("the library dbn_c broke its promise: a row that has a name was {refusal}"),
    }
}

#[cfg(test)]
mod tests {
    use super::*;

    #[test]
    #[should_panic(expected = "broke its promise: a schema is 65536")]
    fn a_number_that_does_not_fit_is_told_loudly() {
        promise::<u16, u64>(65536, "a schema");
    }

    #[test]
    #[should_panic(expected = "broke its promise: an accepted text is not UTF-8")]
    fn a_text_that_is_none_is_told_loudly() {
        text(&[0x45, 0xFF]);
    }

    #[test]
    #[should_panic(expected = "broke its promise: a name of 3 bytes at 2 of 4")]
    fn a_name_outside_is_told_loudly() {
        let _ = part(b"ES.c", 0, [2, 3]);
    }

    #[test]
    #[should_panic(expected = "broke its promise: a row that has a name was refused by 90")]
    fn a_name_that_is_missing_is_told_loudly() {
        named(part(b"ES.c", 90, [0, 0]));
    }

    #[test]
    fn a_name_is_a_part_of_the_bytes() {
        assert_eq!((part(b"ES.c", 0, [3, 1]), part(b"ES.c", 0, [4, 0])), (Ok("c"), Ok("")));
        assert_eq!(part(b"ES.c", 90, [0, 0]), Err(Refusal::own(RefusalKind::RowsMalformed)));
    }
}
