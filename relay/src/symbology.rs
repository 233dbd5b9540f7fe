use crate::{
    ffi::{self, SYMBOLOGY_ROW as ROW},
    named, part, Day, Refusal, RefusalKind,
};
use std::{array, fmt, ops::Range};

/// The kinds of rows that mappings are made of. The kinds below them are those of the three lists of symbols.
pub(crate) const MAPPING: u32 = 3;
pub(crate) const INTERVAL: u32 = 4;

/// A symbol, and what it stood for at which time.
#[derive(Clone, Copy)]
pub struct Mapping<'a> {
    symbology: Symbology<'a>,
    /// The symbol that was asked for.
    pub raw_symbol: &'a str,
    first: usize,
    count: usize,
}

impl<'a> Mapping<'a> {
    /// The mapping's intervals, in the stream's order.
    pub fn intervals(&self) -> impl Iterator<Item = Interval<'a>> + use<'a> {
        let symbology = self.symbology;
        self.rows().map(move |at| symbology.interval(at))
    }

    /// Which rows its intervals have.
    fn rows(&self) -> Range<usize> {
        self.first..self.first + self.count
    }
}

impl fmt::Debug for Mapping<'_> {
    fn fmt(&self, f: &mut fmt::Formatter<'_>) -> fmt::Result {
        let intervals: Vec<_> = self.intervals().collect();
        f.debug_struct("Mapping").field("raw_symbol", &self.raw_symbol).field("intervals", &intervals).finish()
    }
}

/// One interval of a mapping. `end_date - start_date` is how many days it has; a stream may also have one that ends before it starts.
///
/// Intervals are equal where their dates and their symbols are, whichever mappings they belong to.
#[derive(Clone, Copy)]
pub struct Interval<'a> {
    symbology: Symbology<'a>,
    /// The index of its own row, and that of its mapping's.
    at: usize,
    owner: usize,
    /// The first day.
    pub start_date: Day,
    /// The day after the last.
    pub end_date: Day,
    /// What the symbol stood for.
    pub symbol: &'a str,
}

impl<'a> Interval<'a> {
    /// The mapping that the interval belongs to. The interval's row has its index, so nothing is searched.
    pub fn mapping(&self) -> Mapping<'a> {
        let Self { at, owner, .. } = *self;
        match self.symbology.mapping(owner) {
            Some(mapping) if mapping.rows().contains(&at) => mapping,
            _ => panic!("the library dbn_c broke its promise: the owner of the interval in row {at} is row {owner}"),
        }
    }

    /// What two equal intervals have in common.
    fn told(&self) -> (Day, Day, &'a str) {
        (self.start_date, self.end_date, self.symbol)
    }
}

impl PartialEq for Interval<'_> {
    fn eq(&self, other: &Self) -> bool {
        self.told() == other.told()
    }
}

impl Eq for Interval<'_> {}

impl fmt::Debug for Interval<'_> {
    fn fmt(&self, f: &mut fmt::Formatter<'_>) -> fmt::Result {
        let mut shown = f.debug_struct("Interval");
        shown.field("start_date", &self.start_date).field("end_date", &self.end_date);
        shown.field("symbol", &self.symbol).finish()
    }
}

/// The symbology of a block by column: each slice has one number of every row, in the order of the rows.
///
/// The numbers of row `r` are `kinds[r]`, `starts[r]` and so on, and all six slices are as long as the block has rows.
#[derive(Debug, Clone, Copy, PartialEq, Eq)]
pub struct Columns<'a> {
    /// What each row is: a symbol that was asked for (0), that resolved for a part of the time (1) or that did not resolve (2), a mapping
    /// (3), or an interval (4).
    pub kinds: &'a [u32],
    /// Where each row's name starts in the block's bytes.
    pub starts: &'a [u32],
    /// How many bytes each row's name has.
    pub lengths: &'a [u32],
    /// How many intervals a mapping has, the day number of an interval's first day, and 0 in every other row.
    pub xs: &'a [u32],
    /// The number of the day after an interval's last, and 0 in every other row.
    pub ys: &'a [u32],
    /// The index of the mapping's row for an interval, and the row's own index for every other.
    pub owners: &'a [u32],
}

/// The symbology of an accepted block: the table that was lent, how many rows were read into its columns, and the block's bytes, which
/// their names are parts of.
#[derive(Clone, Copy)]
pub(crate) struct Symbology<'a> {
    bytes: &'a [u8],
    table: &'a [u32],
    rows: usize,
}

impl<'a> Symbology<'a> {
    /// The symbology of so many rows that this table tells of. It is the table as it was lent, since its length is what tells its columns.
    pub fn accepted(bytes: &'a [u8], table: &'a [u32], rows: usize) -> Self {
        let symbology = Self { bytes, table, rows };
        let height = symbology.height();
        assert!(rows <= height, "the library dbn_c broke its promise: {rows} symbology rows in a table for {height}");
        symbology
    }

    /// How many rows the table can hold, which is how far its columns stand apart.
    fn height(self) -> usize {
        self.table.len() / ROW
    }

    pub fn columns(self) -> Columns<'a> {
        let [kinds, starts, lengths, xs, ys, owners] =
            array::from_fn(|number| &self.table[number * self.height()..][..self.rows]);
        Columns { kinds, starts, lengths, xs, ys, owners }
    }

    pub fn rows(self) -> impl ExactSizeIterator<Item = [u32; ROW]> + use<'a> {
        let Columns { kinds, starts, lengths, xs, ys, owners } = self.columns();
        (0..self.rows).map(move |at| [kinds, starts, lengths, xs, ys, owners].map(|column| column[at]))
    }

    /// The name of a row, or 90 where there is no such row. The library is not told how many rows were read, and past them the table may
    /// still hold those of another block.
    pub fn name(self, row: usize) -> Result<&'a str, Refusal> {
        let Self { bytes, table, rows } = self;
        if row >= rows {
            return Err(Refusal::own(RefusalKind::RowsMalformed));
        }
        let mut out = [0; 2];
        // SAFETY: each pointer and length are those of a slice.
        let number = unsafe {
            ffi::dbn_symbology_name(bytes.as_ptr(), bytes.len(), table.as_ptr(), table.len(), row as u64, &mut out)
        };
        part(bytes, number, out)
    }

    /// The symbols of the list whose rows are of that kind.
    pub fn list(self, kind: u32) -> impl Iterator<Item = &'a str> + use<'a> {
        self.of_kind(kind).map(move |at| named(self.name(at)))
    }

    pub fn mappings(self) -> impl Iterator<Item = Mapping<'a>> + use<'a> {
        self.of_kind(MAPPING).filter_map(move |at| self.mapping(at))
    }

    pub fn intervals(self) -> impl Iterator<Item = Interval<'a>> + use<'a> {
        self.of_kind(INTERVAL).map(move |at| self.interval(at))
    }

    /// The intervals that have that day. Only these are named, and of the others no more than the kinds and the days are looked at.
    pub fn intervals_on(self, day: Day) -> impl Iterator<Item = Interval<'a>> + use<'a> {
        let columns = self.columns();
        let on = self.of_kind(INTERVAL).filter(move |&at| columns.days(at).contains(&day));
        on.map(move |at| self.interval(at))
    }

    /// The indexes of the rows of that kind.
    fn of_kind(self, kind: u32) -> impl Iterator<Item = usize> + use<'a> {
        (0..).zip(self.columns().kinds).filter(move |(_, &own)| own == kind).map(|(at, _)| at)
    }

    /// The mapping that a row begins, or `None` where there is no such row or it is of another kind.
    fn mapping(self, at: usize) -> Option<Mapping<'a>> {
        let Columns { kinds, xs, .. } = self.columns();
        let &MAPPING = kinds.get(at)? else { return None };
        Some(Mapping { symbology: self, raw_symbol: named(self.name(at)), first: at + 1, count: xs[at] as usize })
    }

    /// The interval of the row at this index, which must be one that was read.
    fn interval(self, at: usize) -> Interval<'a> {
        let (symbol, columns) = (named(self.name(at)), self.columns());
        let Range { start: start_date, end: end_date } = columns.days(at);
        Interval { symbology: self, at, owner: columns.owners[at] as usize, start_date, end_date, symbol }
    }
}

impl Columns<'_> {
    /// The days of an interval's row, none where it ends before it starts.
    fn days(&self, at: usize) -> Range<Day> {
        Day::promised(self.xs[at])..Day::promised(self.ys[at])
    }
}

#[cfg(test)]
mod tests {
    use super::*;

    /// The mapping of the last of these rows, which is an interval. Every row has the name `ES`.
    fn of_last(rows: &[[u32; 4]]) -> String {
        let rows: Vec<_> = rows.iter().map(|&[kind, x, y, owner]| [kind, 0, 2, x, y, owner]).collect();
        let table: Vec<u32> = (0..ROW).flat_map(|number| rows.iter().map(move |row| row[number])).collect();
        let last = Symbology::accepted(b"ES", &table, rows.len()).intervals().last().expect("an interval");
        format!("{:?}", last.mapping())
    }

    #[test]
    fn an_owner_is_a_mapping_that_has_the_interval() {
        let one = "Interval { start_date: Day(0000-01-02), end_date: Day(0000-01-03), symbol: \"ES\" }";
        let wanted = format!("Mapping {{ raw_symbol: \"ES\", intervals: [{one}] }}");
        assert_eq!(of_last(&[[3, 0, 0, 0], [0, 0, 0, 1], [3, 1, 0, 2], [4, 1, 2, 2]]), wanted);
    }

    #[test]
    #[should_panic(expected = "broke its promise: the owner of the interval in row 1 is row 0")]
    fn an_owner_that_is_no_mapping_is_told_loudly() {
        of_last(&[[2, 1, 0, 0], [4, 1, 2, 0]]);
    }

    #[test]
    #[should_panic(expected = "broke its promise: the owner of the interval in row 3 is row 0")]
    fn an_owner_whose_intervals_end_before_is_told_loudly() {
        of_last(&[[3, 1, 0, 0], [4, 1, 2, 0], [3, 1, 0, 2], [4, 1, 2, 0]]);
    }

    #[test]
    #[should_panic(expected = "broke its promise: the owner of the interval in row 0 is row 1")]
    fn an_owner_that_comes_after_is_told_loudly() {
        of_last(&[[4, 1, 2, 1], [3, 1, 0, 1]]);
    }

    #[test]
    #[should_panic(expected = "broke its promise: the owner of the interval in row 1 is row 4294967295")]
    fn an_owner_past_the_rows_is_told_loudly() {
        of_last(&[[3, 1, 0, 0], [4, 1, 2, u32::MAX]]);
    }

    #[test]
    #[should_panic(expected = "broke its promise: a row that has a name was refused by 90")]
    fn a_mapping_of_more_intervals_than_rows_is_told_loudly() {
        of_last(&[[3, 2, 0, 0], [4, 1, 2, 0]]);
    }

    #[test]
    #[should_panic(expected = "broke its promise: 3 symbology rows in a table for 2")]
    fn more_rows_than_the_table_can_hold_are_told_loudly() {
        Symbology::accepted(b"ES", &[0; 17], 3);
    }
}
