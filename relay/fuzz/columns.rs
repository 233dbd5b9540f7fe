//! The symbology table that is lent, by its cells: it has six columns, whose height is the rows that it can hold.
use dbn_start::ffi::SYMBOLOGY_ROW;

/// The numbers of a row.
pub type Row = [u32; SYMBOLOGY_ROW];

/// How many rows a table can hold.
fn height(table: &[u32]) -> usize {
    table.len() / SYMBOLOGY_ROW
}

/// The row at an index, or `None` where the table cannot hold it. Past the rows that were read it is whatever the table held.
pub fn row(table: &[u32], index: usize) -> Option<Row> {
    let height = height(table);
    (index < height).then(|| std::array::from_fn(|number| table[number * height + index]))
}

/// The first rows of a table, which can hold so many.
pub fn rows(table: &[u32], count: usize) -> Vec<Row> {
    (0..count).map(|index| row(table, index).expect("a row that the table can hold")).collect()
}

/// The table with these rows in it, from the top of each column on. Every other cell is as it was.
pub fn filled(table: &[u32], rows: &[Row]) -> Vec<u32> {
    let (mut filled, height) = (table.to_vec(), height(table));
    assert!(rows.len() <= height, "{} rows in a table for {height}", rows.len());
    for (index, row) in rows.iter().enumerate() {
        for (number, &cell) in row.iter().enumerate() {
            filled[number * height + index] = cell;
        }
    }
    filled
}

/// Whether a table that so many rows were read into is as it was lent in every other cell: past the last row of each column, and after the
/// six columns.
pub fn kept(table: &[u32], lent: &[u32], count: usize) -> bool {
    table == filled(lent, &rows(table, count))
}
