use crate::{
    ffi::{LAYOUT_ROW, SYMBOLOGY_ROW},
    promise, Refusal, RefusalKind,
};
use std::alloc::{alloc_zeroed, Layout};

/// The most that a stream start may take.
///
/// A [`Feed`](crate::Feed) takes less than `2 * bytes + 36 * rows` bytes and 4 KiB of memory: what has come, twice while the store grows,
/// and 24 bytes for a row of symbology or 36 for one of a layout. Memory grows with what arrives, not with what a prelude claims. The first
/// tables for a block are guessed, and have at most three times its bytes.
#[derive(Debug, Clone, Copy, PartialEq, Eq)]
pub struct Limits {
    /// The most bytes of a stream start, the prelude's eight among them. One that announces more is refused by 2.
    pub bytes: usize,
    /// The most rows, of symbology and of layout together. A block that has more is refused by 3.
    pub rows: usize,
}

/// 16 MiB and 1,048,576 rows: no stream start of 16 MiB whose symbols are 16 bytes wide or wider has more rows.
impl Default for Limits {
    fn default() -> Self {
        Self { bytes: 1 << 24, rows: 1 << 20 }
    }
}

/// Row tables to read into. They grow to what a block or a layout may need by its length, and then to what it needs, up to a limit, and can be
/// used again.
#[derive(Debug, Clone)]
pub struct Tables {
    pub(crate) symbology: Vec<u32>,
    pub(crate) layout: Vec<u32>,
    most: usize,
}

impl Tables {
    /// Empty tables that will hold at most so many rows, of symbology and of layout together.
    pub fn new(rows: usize) -> Self {
        Self { symbology: Vec::new(), layout: Vec::new(), most: rows }
    }

    /// Makes room for so many rows of each kind. 3 where they pass the limit.
    pub(crate) fn grow(&mut self, symbology: u64, layout: u64) -> Result<(), Refusal> {
        let (symbology, layout): (usize, usize) = (promise(symbology, "rows needed"), promise(layout, "rows needed"));
        if symbology.checked_add(layout).is_none_or(|rows| rows > self.most) {
            return Err(Refusal::own(RefusalKind::TableShort));
        }
        self.keep_within(symbology, layout);
        room(&mut self.symbology, symbology, SYMBOLOGY_ROW)?;
        room(&mut self.layout, layout, LAYOUT_ROW)
    }

    /// Makes room for rows that may be needed, as far as the limit and the memory go.
    pub(crate) fn guess(&mut self, symbology: usize, layout: usize) {
        let symbology = symbology.min(self.most);
        let layout = layout.min(self.most - symbology);
        self.keep_within(symbology, layout);
        // Where there is no memory for a guess, the rows that are needed may still find some.
        let _ = room(&mut self.symbology, symbology, SYMBOLOGY_ROW);
        let _ = room(&mut self.layout, layout, LAYOUT_ROW);
    }

    /// Gives both tables back where one that is kept would pass the limit with what the other grows to.
    fn keep_within(&mut self, symbology: usize, layout: usize) {
        let symbology = symbology.max(self.symbology.len() / SYMBOLOGY_ROW);
        let layout = layout.max(self.layout.len() / LAYOUT_ROW);
        if symbology.saturating_add(layout) > self.most {
            (self.symbology, self.layout) = (Vec::new(), Vec::new());
        }
    }
}

/// Empty tables with the rows of [`Limits::default`].
impl Default for Tables {
    fn default() -> Self {
        Self::new(Limits::default().rows)
    }
}

/// Makes room for so many rows of `width` numbers. What the table held is not kept.
fn room(table: &mut Vec<u32>, rows: usize, width: usize) -> Result<(), Refusal> {
    let no_memory = Refusal::own(RefusalKind::NoMemory);
    let numbers = rows.checked_mul(width).ok_or(no_memory)?;
    if table.len() < numbers {
        // The old numbers are given back first, so that never both are there.
        *table = Vec::new();
        *table = zeroed(numbers).ok_or(no_memory)?;
    }
    Ok(())
}

/// Numbers that are 0 where all their bytes are.
pub(crate) trait Number {}
impl Number for u8 {}
impl Number for u32 {}

/// So many numbers, one or more, all 0, or `None` where there is no memory. The system gives large ones as pages that hold zeros already, so what
/// is never written costs nothing.
pub(crate) fn zeroed<T: Number>(numbers: usize) -> Option<Vec<T>> {
    let layout = Layout::array::<T>(numbers).ok().filter(|layout| layout.size() > 0)?;
    // SAFETY: the layout has a size, which is not 0.
    let at = unsafe { alloc_zeroed(layout) }.cast::<T>();
    // SAFETY: where it is not null, the memory is the allocator's, for so many numbers, and each of them is 0.
    (!at.is_null()).then(|| unsafe { Vec::from_raw_parts(at, numbers, numbers) })
}

/// The numbers of a table as rows that stand one after the other.
pub(crate) fn rows<const N: usize>(table: &[u32]) -> impl ExactSizeIterator<Item = &[u32; N]> {
    table.chunks_exact(N).map(|row| row.try_into().expect("a chunk of N"))
}
