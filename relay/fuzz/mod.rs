//! The fuzz loop: made and damaged inputs through every C function.
//!
//! What is checked needs no second reader: nothing outside what is lent is read or written; a refusal is a number of the table, and leaves tables
//! and output as they were, and `out` too but for what is named; it has a place where its number has one, within what was given; the answer is the
//! same however a stream is cut; the count needed is the least that ends the stage; a block, its stream and its layout get the
//! same answer; a table is written in the cells of the rows and nowhere else; a name is the span that its row tells, and lies within the bytes; it
//! holds no NUL, and the rest of its width is NULs, or the text is refused; what is read is written back, and what is written is read back; an
//! interval has the day numbers of its stored dates, and days and dates turn into each other; an interval has the row of its mapping, and every
//! other row its own; a block that was read is written, in any version, and what the block writer accepts reads back; records stand one after
//! the other, each as long as its first byte says; a layout is tidy exactly if it is written again as the same bytes, and what is untidy is told first
//! by place; what a writer gives is tidy; a start is stored in a house file as a plain program packs it, and comes back; a file is loaded as a plain
//! program unpacks it and the feed then reads it, and any one changed byte is refused.
pub mod calls;
mod checks;
mod columns;
mod days;
mod frames;
pub mod gen;
pub mod house;
mod names;
mod owners;
mod starts;
mod texts;
pub mod tidy;
pub mod untidy;
mod writing;

use gen::Rng;

/// How many inputs were tried, and what they came to.
#[derive(Default, Debug, Clone, Copy, PartialEq, Eq)]
pub struct Count {
    pub inputs: u64,
    pub accepted: u64,
    pub refused: u64,
    pub waiting: u64,
    pub calls: u64,
}

/// Tells which input was at hand where a check fails.
struct At {
    seed: u64,
    input: u64,
}

impl Drop for At {
    fn drop(&mut self) {
        if std::thread::panicking() {
            eprintln!("fuzz: input {} of seed {}", self.input, self.seed);
        }
    }
}

/// Tries the inputs from `first` up to `end` of `seed`. Each has a generator of its own, so that one can be tried alone.
pub fn run(first: u64, end: u64, seed: u64) -> Count {
    let mut count = Count::default();
    for input in first..end {
        let at = At { seed, input };
        calls::lent::begin(input);
        let mut r = Rng::new(seed.wrapping_mul(1_000_003).wrapping_add(input.wrapping_mul(0x5851_F42D_4C95_7F2D)));
        let sheet = match r.below(4) {
            0 => gen::other_sheet(),
            1 => gen::Sheet::random(&mut r),
            _ => gen::plain_sheet(),
        };
        match r.below(10) {
            0..=3 => checks::stream(&mut r, &sheet, &mut count),
            4..=5 => checks::layout(&mut r, &sheet, &mut count),
            6 => checks::spoiled_layout(&mut r, &sheet, &mut count),
            7 => frames::records(&mut r, &mut count),
            8 => house::files(&mut r, &sheet, &mut count),
            _ => checks::anything(&mut r, &sheet, &mut count),
        }
        count.inputs += 1;
        drop(at);
    }
    count
}
