//! Whose interval it is, and which contract stood behind a symbol on a day.
mod common;
use common::{capture, symbology, Intervals, INTERVALS};
use dbn_start::{Block, Day, Tables};

/// Mappings of which some have no intervals, and two have the same raw symbol. The intervals of CL.c.0 overlap, but for one that ends before
/// it starts and one that ends on the day it starts, which have no day.
const MAPPINGS: [(&str, Intervals); 6] = [
    ("ZN.c.0", &[]),
    ("ES.c.0", &[(20230101, 20230317, "ESH3"), (20230317, 20230616, "ESM3")]),
    ("NQ.c.0", &[]),
    (
        "CL.c.0",
        &[
            (20230301, 20230401, "CLK3"),
            (20230315, 20230501, "CLM3"),
            (20230430, 20230420, "CLN3"),
            (20230401, 20230401, "CLQ3"),
        ],
    ),
    ("ES.c.0", &[(20230310, 20230320, "ESX3"), (20230616, 20230915, "ESU3")]),
    ("YM.c.0", &[]),
];

/// A version 3 block with these mappings and symbols in each list.
fn block_of(mappings: &[(&str, Intervals)]) -> Vec<u8> {
    let mut block = vec![0; 104];
    block[45] = 6;
    block.extend(symbology(6, [&["ES.c.0", "CL.c.0"], &["NQ.c.0"], &["ZZ"]], mappings));
    block
}

fn read<'a>(bytes: &'a [u8], tables: &'a mut Tables) -> Block<'a> {
    Block::read(3, bytes, None, tables).expect("an accepted block")
}

fn day(yyyymmdd: u32) -> Day {
    Day::from_yyyymmdd(yyyymmdd).expect("a date")
}

#[test]
fn an_interval_s_row_has_its_mapping_s_index_and_every_other_its_own() {
    let (bytes, mut tables) = (block_of(&MAPPINGS), Tables::default());
    let rows: Vec<[u32; 2]> = read(&bytes, &mut tables).rows().map(|row| [row[0], row[5]]).collect();
    let lists = [[0, 0], [0, 1], [1, 2], [2, 3]];
    let first = [[3, 4], [3, 5], [4, 5], [4, 5], [3, 8]];
    let second = [[3, 9], [4, 9], [4, 9], [4, 9], [4, 9], [3, 14], [4, 14], [4, 14], [3, 17]];
    assert_eq!(rows, [&lists[..], &first, &second].concat());
}

#[test]
fn intervals_come_in_the_stream_s_order_each_with_its_mapping() {
    let (bytes, mut tables) = (block_of(&MAPPINGS), Tables::default());
    let block = read(&bytes, &mut tables);
    let told = block
        .intervals()
        .map(|one| (one.mapping().raw_symbol, (one.start_date.yyyymmdd(), one.end_date.yyyymmdd(), one.symbol)));
    let wanted = MAPPINGS.iter().flat_map(|(raw_symbol, intervals)| intervals.iter().map(|one| (*raw_symbol, *one)));
    assert_eq!(told.collect::<Vec<_>>(), wanted.collect::<Vec<_>>());
    // The two mappings of ES.c.0 are told apart by what they have.
    for mapping in block.mappings() {
        assert!(mapping.intervals().all(|one| one.mapping().intervals().eq(mapping.intervals())), "{mapping:?}");
    }
    assert_eq!(block.mappings().map(|mapping| mapping.intervals().count()).collect::<Vec<_>>(), [0, 2, 0, 4, 2, 0]);
}

#[test]
fn a_block_without_mappings_has_no_intervals() {
    let (bytes, mut tables) = (block_of(&[]), Tables::default());
    let block = read(&bytes, &mut tables);
    assert_eq!((block.rows().len(), block.intervals().count()), (4, 0));
    assert_eq!(block.intervals_on(day(20230301)).count(), 0);
    assert_eq!(block.interval_on("ES.c.0", day(20230301)), None, "a symbol of a list is no mapping");
}

#[test]
fn the_intervals_of_a_day() {
    let (bytes, mut tables) = (block_of(&MAPPINGS), Tables::default());
    let block = read(&bytes, &mut tables);
    let days: [(u32, &[&str]); 16] = [
        (101, &[]),
        (20221231, &[]),
        (20230101, &["ESH3"]),
        (20230228, &["ESH3"]),
        (20230301, &["ESH3", "CLK3"]),
        (20230316, &["ESH3", "CLK3", "CLM3", "ESX3"]),
        (20230317, &["ESM3", "CLK3", "CLM3", "ESX3"]),
        (20230320, &["ESM3", "CLK3", "CLM3"]),
        (20230401, &["ESM3", "CLM3"]),
        (20230425, &["ESM3", "CLM3"]),
        (20230501, &["ESM3"]),
        (20230615, &["ESM3"]),
        (20230616, &["ESU3"]),
        (20230914, &["ESU3"]),
        (20230915, &[]),
        (99991231, &[]),
    ];
    for (date, symbols) in days {
        let told: Vec<_> = block.intervals_on(day(date)).map(|interval| interval.symbol).collect();
        assert_eq!(told, symbols, "{date}");
    }
}

#[test]
fn the_contract_behind_a_symbol_on_a_day() {
    let (bytes, mut tables) = (block_of(&MAPPINGS), Tables::default());
    let block = read(&bytes, &mut tables);
    let contract = |raw_symbol: &str, date: u32| {
        let found = block.interval_on(raw_symbol, day(date));
        assert!(found.is_none_or(|interval| interval.mapping().raw_symbol == raw_symbol));
        found.map(|interval| interval.symbol)
    };
    assert_eq!([20230310, 20230319].map(|date| contract("ES.c.0", date)), [Some("ESH3"), Some("ESM3")], "not ESX3");
    assert_eq!([20230616, 20230914].map(|date| contract("ES.c.0", date)), [Some("ESU3"); 2], "of the second mapping");
    assert_eq!([20230314, 20230331].map(|date| contract("CL.c.0", date)), [Some("CLK3"); 2], "the first of two");
    assert_eq!([20230401, 20230425].map(|date| contract("CL.c.0", date)), [Some("CLM3"); 2], "the only one");
    assert_eq!([20230228, 20230501].map(|date| contract("CL.c.0", date)), [None; 2], "before and after all");
    // Mappings without intervals, a symbol that is in a list alone, a contract, parts of a symbol, and more than one.
    for other in ["ZN.c.0", "NQ.c.0", "YM.c.0", "ZZ", "ESH3", "", "ES.c", "S.c.0", "ES.c.0\0", "es.c.0"] {
        assert_eq!(contract(other, 20230316), None, "{other:?}");
    }
}

#[test]
fn the_capture_s_contract_on_each_day() {
    let (bytes, _) = capture();
    let mut tables = Tables::default();
    let block = Block::read(2, &bytes[8..], None, &mut tables).expect("the capture");
    let contract = |day: Day| {
        let found = block.interval_on("ES.c.0", day);
        assert!(found.is_none_or(|interval| interval.mapping().raw_symbol == "ES.c.0"));
        assert!(block.intervals_on(day).eq(found), "no other has {day}");
        found.map(|interval| interval.symbol)
    };
    let mut days = 0;
    for (start, end, symbol) in INTERVALS {
        for number in day(start).number()..day(end).number() {
            assert_eq!(Day::from_number(number).map(contract), Some(Some(symbol)), "day {number}");
            days += 1;
        }
    }
    assert_eq!(days, 75 + 91 + 91 + 91);
    let edges = [(20230101, "3403"), (20230316, "3403"), (20230317, "206299"), (20231214, "314863")];
    assert_eq!(edges.map(|(date, _)| contract(day(date))), edges.map(|(_, symbol)| Some(symbol)));
    assert_eq!([20221231, 20231215, 20231216].map(|date| contract(day(date))), [None; 3]);
    assert_eq!([Day::FIRST, Day::LAST].map(contract), [None; 2]);
    assert_eq!(block.interval_on("ES.c.1", day(20230401)), None);
}

#[test]
fn intervals_are_equal_by_their_dates_and_symbols() {
    let four: Intervals = &[
        (20230101, 20230317, "ESH3"),
        (20230101, 20230317, "ESM3"),
        (20230101, 20230316, "ESH3"),
        (20230102, 20230317, "ESH3"),
    ];
    let (bytes, mut tables) = (block_of(&[("ES.c.0", four), ("ES.v.0", four)]), Tables::default());
    let all: Vec<_> = read(&bytes, &mut tables).intervals().collect();
    for (i, one) in all.iter().enumerate() {
        for (j, other) in all.iter().enumerate() {
            assert_eq!(one == other, i % 4 == j % 4, "intervals {i} and {j}");
        }
    }
    let shown = "Interval { start_date: Day(2023-01-01), end_date: Day(2023-03-17), symbol: \"ESH3\" }";
    assert_eq!(format!("{:?}", all[0]), shown);
}
