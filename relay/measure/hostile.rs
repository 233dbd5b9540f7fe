//! What a hostile sender would make: each shape has a size, and a cost that grows with the bytes doubles with it.
use super::{
    calls::{Call, Function},
    shapes::{self, Order},
};

/// A shape of any size, and the function that is called on it.
pub struct Shape {
    pub function: Function,
    what: &'static str,
    /// Its full size.
    pub n: usize,
    make: fn(usize) -> Vec<u8>,
}

/// What a call of [`Shape::what`] is refused by where its name ends so.
const REFUSED: (&str, u32) = ("(55)", 55);

impl Shape {
    /// Layouts, each through the reader, asked whether it is tidy and, where it is accepted, through the writer; then blocks, each through both.
    pub fn all() -> Vec<Self> {
        let mut all = Vec::new();
        for (what, n, make) in LAYOUTS {
            all.extend([Function::Layout, Function::Tidy].map(|function| Self { function, what, n, make }));
            if !what.ends_with(REFUSED.0) {
                all.push(Self { function: Function::Write, what, n, make });
            }
        }
        for (what, n, make) in BLOCKS {
            all.extend([Function::Block, Function::WriteBlock].map(|function| Self { function, what, n, make }));
        }
        all
    }

    pub fn name(&self) -> String {
        format!("{}, {}", self.function, self.what)
    }

    /// The bytes of a shape of that size.
    pub fn bytes(&self, n: usize) -> Vec<u8> {
        (self.make)(n)
    }

    /// The number that a call answers.
    pub fn number(&self) -> u32 {
        if self.what.ends_with(REFUSED.0) {
            REFUSED.1
        } else {
            0
        }
    }

    /// The call on these bytes, with tables that are just long enough.
    pub fn exact<'a>(&self, bytes: &'a [u8]) -> Call<'a> {
        self.function.exact(3, bytes)
    }

    /// The same, with no other call before it.
    pub fn ample<'a>(&self, bytes: &'a [u8]) -> Call<'a> {
        self.function.ample(3, bytes)
    }
}

type Made = (&'static str, usize, fn(usize) -> Vec<u8>);

const LAYOUTS: [Made; 13] = [
    ("structs with nothing in them", 65_535, shapes::structs),
    ("fields that name the last of as many structs, which has as many fields", 3_600, shapes::last_struct),
    ("records of one field", 60_000, shapes::records),
    ("labels in one def", 16_000, |n| shapes::labels(n, false)),
    ("labels in one def, the last code twice (55)", 16_000, |n| shapes::labels(n, true)),
    ("label defs of one label", 60_000, shapes::label_defs),
    ("fields in order", 3_600, |n| shapes::tiled(n, 1, 1, Order::Rising)),
    ("fields in reverse", 3_600, |n| shapes::tiled(n, 1, 1, Order::Reverse)),
    ("fields shuffled", 3_600, |n| shapes::tiled(n, 1, 1, Order::Shuffled)),
    ("records of 3,600 fields in order", 50, |n| shapes::tiled(3_600, 1, n, Order::Rising)),
    ("records of 3,600 fields in reverse", 50, |n| shapes::tiled(3_600, 1, n, Order::Reverse)),
    ("records of 3,600 fields shuffled", 50, |n| shapes::tiled(3_600, 1, n, Order::Shuffled)),
    ("records of 64 fields of 1,000 bytes in reverse", 2_700, |n| shapes::tiled(64, 1_000, n, Order::Reverse)),
];

const BLOCKS: [Made; 10] = [
    ("symbols of 22 bytes", 200_000, |n| shapes::block(3, 22, &shapes::symbology(22, n, 0, 0))),
    ("symbols of one byte", 1_000_000, |n| shapes::block(3, 1, &shapes::symbology(1, n, 0, 0))),
    ("mappings of no intervals, width 0", 500_000, |n| shapes::block(3, 0, &shapes::symbology(0, 0, n, 0))),
    ("symbols of 70 bytes of two-byte letters", 50_000, |n| foreign(n, "é")),
    ("symbols of 70 bytes of three-byte letters", 50_000, |n| foreign(n, "€")),
    ("symbols of 70 bytes of three-byte letters that begin with E0", 50_000, |n| foreign(n, "ก")),
    ("symbols of 70 bytes of four-byte letters", 50_000, |n| foreign(n, "𝄞")),
    ("symbols of 70 bytes of 'a' and a two-byte letter in turn", 50_000, |n| foreign(n, "aé")),
    ("intervals with dates of a year, width 0", 200_000, |n| shapes::block(3, 0, &shapes::intervals(n, 12))),
    ("intervals with dates of all years, width 0", 200_000, |n| shapes::block(3, 0, &shapes::intervals(n, 120_000))),
];

/// A block of symbols of 70 bytes of these letters in turn.
fn foreign(symbols: usize, letters: &str) -> Vec<u8> {
    shapes::block(3, 70, &shapes::lettered(70, symbols, letters))
}
