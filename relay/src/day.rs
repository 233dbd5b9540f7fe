use crate::{ffi, promise};
use std::{fmt, ops::Sub};

/// A day of the years 0 to 9999, by its number: 1 January of year 0 is 0, and each day after it has the next number, by the Gregorian
/// rule in every year. So 1 January of year 1 is 366, and the last day is 3,652,424.
///
/// Days have the order of the calendar, and one taken from another gives the days between them.
///
/// ```
/// use dbn_start::Day;
/// let [start, end] = [20230317, 20230616].map(|date| Day::from_yyyymmdd(date).expect("a date"));
/// assert!(start < end);
/// assert_eq!((end - start, start - end), (91, -91));
/// // The last day of an interval is the day before its end.
/// let last = end.checked_add(-1).expect("a day before");
/// assert_eq!(last.to_string(), "2023-06-15");
/// ```
#[derive(Clone, Copy, PartialEq, Eq, PartialOrd, Ord, Hash)]
pub struct Day(u32);

impl Day {
    /// 1 January of year 0.
    pub const FIRST: Self = Self(0);
    /// 31 December of year 9999.
    pub const LAST: Self = Self(ffi::DAY_LAST);

    /// The day of a number, or `None` above that of [`Day::LAST`].
    pub fn from_number(number: u32) -> Option<Self> {
        (number <= Self::LAST.0).then_some(Self(number))
    }

    /// The day of a date as streams store it, year x 10000 + month x 100 + day, or `None` where the calendar has no such date.
    pub fn from_yyyymmdd(yyyymmdd: u32) -> Option<Self> {
        let mut out = [0];
        // SAFETY: `out` is ours.
        let is_date = unsafe { ffi::dbn_date(yyyymmdd, &mut out) } == 1;
        is_date.then(|| Self::promised(promise(out[0], "a day's number")))
    }

    /// The day of a number of the library's, which is promised to be one.
    pub(crate) fn promised(number: u32) -> Self {
        match Self::from_number(number) {
            Some(day) => day,
            None => panic!("the library dbn_c broke its promise: a day's number is {number}"),
        }
    }

    /// The day's number, 0 to 3,652,424.
    pub fn number(self) -> u32 {
        self.0
    }

    /// The day's date as streams store it, year x 10000 + month x 100 + day.
    pub fn yyyymmdd(self) -> u32 {
        let mut out = [0];
        // SAFETY: `out` is ours.
        let is_day = unsafe { ffi::dbn_day(self.0, &mut out) } == 1;
        assert!(is_day, "the library dbn_c broke its promise: day {} has no date", self.0);
        promise(out[0], "a date")
    }

    /// The year, 0 to 9999.
    pub fn year(self) -> u32 {
        self.yyyymmdd() / 10000
    }

    /// The month, 1 to 12.
    pub fn month(self) -> u32 {
        self.yyyymmdd() / 100 % 100
    }

    /// The day of the month, 1 to 31.
    pub fn day(self) -> u32 {
        self.yyyymmdd() % 100
    }

    /// So many days later, or earlier where they are below 0; `None` before [`Day::FIRST`] and after [`Day::LAST`].
    pub fn checked_add(self, days: i32) -> Option<Self> {
        Self::from_number(self.0.checked_add_signed(days)?)
    }
}

/// How many days `self` comes after `other`, below 0 where it comes before.
impl Sub for Day {
    type Output = i32;

    fn sub(self, other: Self) -> i32 {
        self.0 as i32 - other.0 as i32
    }
}

/// The date as `2023-03-17`.
impl fmt::Display for Day {
    fn fmt(&self, f: &mut fmt::Formatter<'_>) -> fmt::Result {
        let date = self.yyyymmdd();
        write!(f, "{:04}-{:02}-{:02}", date / 10000, date / 100 % 100, date % 100)
    }
}

impl fmt::Debug for Day {
    fn fmt(&self, f: &mut fmt::Formatter<'_>) -> fmt::Result {
        write!(f, "Day({self})")
    }
}

#[cfg(test)]
mod tests {
    use super::*;

    #[test]
    #[should_panic(expected = "broke its promise: a day's number is 3652425")]
    fn a_number_after_the_last_day_is_told_loudly() {
        Day::promised(3_652_425);
    }

    #[test]
    #[should_panic(expected = "broke its promise: day 3652425 has no date")]
    fn a_day_without_a_date_is_told_loudly() {
        Day(3_652_425).yyyymmdd();
    }
}
