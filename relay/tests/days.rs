//! Days: what they are called, how they are subtracted and in which order they come.
use dbn_start::{is_date, Day};
use std::collections::HashSet;

/// The day of a date.
fn day(yyyymmdd: u32) -> Day {
    Day::from_yyyymmdd(yyyymmdd).expect("a date")
}

#[test]
fn the_first_days_and_the_last() {
    for (date, number) in [(101, 0), (102, 1), (1231, 365), (10101, 366), (10102, 367), (99991231, 3_652_424)] {
        assert_eq!((day(date).number(), Day::from_number(number)), (number, Some(day(date))), "{date}");
    }
    assert_eq!((Day::FIRST, Day::LAST), (day(101), day(99991231)));
    assert_eq!(Day::LAST - Day::FIRST, 3_652_424);
    for number in [3_652_425, 20230317, u32::MAX] {
        assert_eq!(Day::from_number(number), None, "{number}");
    }
}

#[test]
fn what_is_no_date_has_no_day() {
    for date in [0, 100, 1, 20230230, 20231301, 20230001, 20230100, 20230432, 100000101, u32::MAX] {
        assert_eq!((Day::from_yyyymmdd(date), is_date(date)), (None, false), "{date}");
    }
}

#[test]
fn leap_days() {
    // From the last of February to the first of March, and from one new year to the next.
    let years = [(0, 2, 366), (1, 1, 365), (4, 2, 366), (1900, 1, 365), (2000, 2, 366), (2023, 1, 365), (2024, 2, 366)];
    for (year, around, whole) in years {
        let first = year * 10000;
        assert_eq!(day(first + 301) - day(first + 228), around, "February of {year}");
        assert_eq!(day(first + 10101) - day(first + 101), whole, "{year}");
        assert_eq!(is_date(first + 229), around == 2, "29 February of {year}");
    }
}

#[test]
fn days_are_subtracted() {
    assert_eq!(day(20230616) - day(20230317), 91);
    assert_eq!(day(20230317) - day(20230616), -91);
    assert_eq!(day(20230317) - day(20230317), 0);
    assert_eq!(day(20000101) - day(19700101), 10_957);
    assert_eq!(Day::FIRST - Day::LAST, -3_652_424);
}

#[test]
fn days_before_and_after() {
    assert_eq!(day(20240229).checked_add(1), Some(day(20240301)));
    assert_eq!(day(20230616).checked_add(-1), Some(day(20230615)));
    assert_eq!(day(20230101).checked_add(-1), Some(day(20221231)));
    assert_eq!(Day::FIRST.checked_add(3_652_424), Some(Day::LAST));
    assert_eq!(Day::LAST.checked_add(-3_652_424), Some(Day::FIRST));
    for (from, days) in [(Day::FIRST, -1), (Day::LAST, 1), (Day::FIRST, i32::MIN), (Day::LAST, i32::MAX)] {
        assert_eq!(from.checked_add(days), None, "{from} and {days} days");
    }
}

#[test]
fn days_have_the_order_of_the_calendar() {
    let mut days = [20231215, 99991231, 101, 20230917, 10101, 20230916, 20221231].map(day);
    days.sort();
    assert_eq!(days.map(Day::yyyymmdd), [101, 10101, 20221231, 20230916, 20230917, 20231215, 99991231]);
    assert_eq!(days.into_iter().chain([day(101)]).collect::<HashSet<_>>().len(), 7);
}

#[test]
fn days_are_printed() {
    for (date, text) in [(20230317, "2023-03-17"), (101, "0000-01-01"), (51112, "0005-11-12"), (99991231, "9999-12-31")]
    {
        assert_eq!(day(date).to_string(), text);
        assert_eq!(format!("{:?}", day(date)), format!("Day({text})"));
    }
}

#[test]
fn every_day_is_its_year_month_and_day() {
    for number in 0..=Day::LAST.number() {
        let day = Day::from_number(number).expect("a day");
        let date = day.year() * 10000 + day.month() * 100 + day.day();
        assert_eq!((day.number(), day.yyyymmdd(), Day::from_yyyymmdd(date)), (number, date, Some(day)));
    }
}
