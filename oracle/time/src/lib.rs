// STAND-IN for the crate `time`, which is not at hand: only what the given files name.
// Range of `Date` is that of `time` without its feature `large-dates`: years -9999 to 9999.
#[derive(Debug, Clone, Copy, PartialEq, Eq, PartialOrd, Ord, Hash)]
pub struct Date { year: i32, month: Month, day: u8 }
#[derive(Debug, Clone, Copy, PartialEq, Eq, PartialOrd, Ord, Hash)]
#[repr(u8)]
pub enum Month { January = 1, February, March, April, May, June, July, August, September, October, November, December }
#[derive(Debug, Clone, Copy, PartialEq, Eq)]
pub struct ComponentRange(pub &'static str);
impl std::fmt::Display for ComponentRange {
    fn fmt(&self, f: &mut std::fmt::Formatter<'_>) -> std::fmt::Result { write!(f, "{} must be in range", self.0) }
}
impl TryFrom<u8> for Month {
    type Error = ComponentRange;
    fn try_from(v: u8) -> Result<Self, ComponentRange> {
        use Month::*;
        Ok(match v { 1 => January, 2 => February, 3 => March, 4 => April, 5 => May, 6 => June, 7 => July,
            8 => August, 9 => September, 10 => October, 11 => November, 12 => December, _ => return Err(ComponentRange("month")) })
    }
}
const fn is_leap(y: i32) -> bool { y % 4 == 0 && (y % 25 != 0 || y % 16 == 0) }
impl Date {
    pub fn from_calendar_date(year: i32, month: Month, day: u8) -> Result<Self, ComponentRange> {
        if !(-9999..=9999).contains(&year) { return Err(ComponentRange("year")); }
        let last = match month as u8 { 4 | 6 | 9 | 11 => 30, 2 => if is_leap(year) { 29 } else { 28 }, _ => 31 };
        if day < 1 || day > last { return Err(ComponentRange("day")); }
        Ok(Self { year, month, day })
    }
    pub fn year(&self) -> i32 { self.year }
    pub fn month(&self) -> Month { self.month }
    pub fn day(&self) -> u8 { self.day }
}
#[derive(Debug, Clone, Copy, PartialEq, Eq)]
pub struct OffsetDateTime(pub i128);
impl OffsetDateTime {
    pub fn from_unix_timestamp_nanos(n: i128) -> Result<Self, ComponentRange> { Ok(Self(n)) }
}
pub mod format_description { #[derive(Debug, Clone, Copy)] pub struct BorrowedFormatItem<'a>(pub &'a str); }
pub mod macros { pub use crate::format_description_shim as format_description; }
#[macro_export]
macro_rules! format_description_shim { ($s:literal) => { &[] }; }
#[derive(Debug, Clone, Copy, PartialEq, Eq)]
pub struct Duration(pub i64, pub i32);
impl Duration { pub fn new(s: i64, n: i32) -> Self { Self(s, n) } }
