//! Owners: a row's last number is its own index, but for an interval, which has its mapping's.
use super::columns::Row;

/// An interval's owner is a mapping before it that has so many intervals, and only intervals of that one stand between. Every other row
/// owns itself, and a mapping's last interval is the last row that it owns.
pub fn accepted(rows: &[Row]) {
    for (at, row) in rows.iter().enumerate() {
        let (kind, owner) = (row[0], row[5] as usize);
        if kind != 4 {
            assert_eq!(owner, at, "the owner of row {at}, which is of kind {kind}");
        } else {
            assert!(owner < at && rows[owner][0] == 3, "row {owner} owns the interval in row {at}");
            assert!(at <= owner + rows[owner][3] as usize, "row {owner} has fewer intervals than up to row {at}");
            let between = &rows[owner + 1..at];
            assert!(between.iter().all(|row| (row[0], row[5] as usize) == (4, owner)), "rows {owner} to {at}");
        }
        if kind == 3 {
            let last = rows.iter().rposition(|row| row[5] as usize == at);
            assert_eq!(last, Some(at + row[3] as usize), "the last row that row {at} owns");
        }
    }
}
