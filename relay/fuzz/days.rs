//! Days: an interval has the day numbers of the dates that its block stores, and days and dates turn into each other.
use super::{
    calls,
    checks::marked_out,
    columns::Row,
    gen::{self, Rng},
};
use dbn_start::ffi::DAY_LAST;

/// The two dates of an interval stand before its symbol. Its row has their numbers, which give the dates back.
pub fn accepted(block: &[u8], rows: &[Row]) {
    for row in rows.iter().filter(|row| row[0] == 4) {
        let symbol = row[1] as usize;
        for (place, day) in [(symbol - 8, row[3]), (symbol - 4, row[4])] {
            let date = u32::from_le_bytes(block[place..place + 4].try_into().unwrap());
            assert_eq!(calls::date(date, &[0]), (1, [day as u64]), "the day of the date at {place}");
            assert_eq!(calls::day(day, &[0]), (1, [date as u64]), "the date of the day for {place}");
        }
    }
}

/// Any number as a date, and any as a day: one that is none leaves `out`, and the others turn into each other.
pub fn any(r: &mut Rng) {
    let (made, step) = (gen::date(r), r.pick(&[0, 1, 3, 70, 100, 10000, u32::MAX]));
    for date in [made.wrapping_add(step), r.next() as u32, (r.next() >> r.below(64)) as u32] {
        let out = marked_out(r);
        match calls::date(date, &out) {
            (1, [day]) if day <= DAY_LAST as u64 => {
                assert_eq!(calls::day(day as u32, &out), (1, [date as u64]), "the date of the day of {date}");
            }
            told => assert_eq!(told, (0, out), "{date}, which is no date"),
        }
    }
    let near = DAY_LAST - 2 + r.below(5) as u32;
    for day in [r.below(DAY_LAST as usize) as u32, near, r.next() as u32] {
        if let Some(date) = date_of(r, day) {
            assert!(date_of(r, day + 1).is_none_or(|next| date < next), "the day after {day}");
        }
    }
}

/// The date of a day, whose number is the day's, or none after the last.
fn date_of(r: &mut Rng, day: u32) -> Option<u64> {
    let out = marked_out(r);
    let told = calls::day(day, &out);
    if day > DAY_LAST {
        assert_eq!(told, (0, out), "day {day}, which is none");
        return None;
    }
    let (answer, [date]) = told;
    assert!(answer == 1 && date <= 99_991_231, "the date of day {day}: {told:?}");
    assert_eq!(calls::date(date as u32, &out), (1, [day as u64]), "the day of the date of {day}");
    Some(date)
}
