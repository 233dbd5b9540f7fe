//! The symbology of a block by column and by row: the same numbers, whatever the height of the table that they were read into.
#[path = "../fuzz/calls.rs"]
mod calls;
#[allow(dead_code)]
#[path = "../fuzz/columns.rs"]
mod cells;
mod common;
#[allow(dead_code)]
#[path = "../fuzz/gen.rs"]
mod gen;

use common::{capture, p10};
use dbn_start::{Block, Columns, Feed, Limits, RefusalKind, Sheet, Step, Tables};
use gen::Rng;

/// The rows of a block, which its columns have too, each as long as there are rows.
fn rows(block: &Block) -> Vec<[u32; 6]> {
    let Columns { kinds, starts, lengths, xs, ys, owners } = block.columns();
    let (columns, rows) = ([kinds, starts, lengths, xs, ys, owners], block.rows());
    assert_eq!(columns.map(<[u32]>::len), [rows.len(); 6]);
    let rows: Vec<_> = rows.collect();
    for (number, column) in columns.into_iter().enumerate() {
        assert!(column.iter().eq(rows.iter().map(|row| &row[number])), "column {number}");
    }
    rows
}

#[test]
fn the_columns_of_the_capture() {
    let (bytes, _) = capture();
    let mut tables = Tables::default();
    let block = Block::read(2, &bytes[8..], None, &mut tables).expect("the capture");
    let columns = Columns {
        kinds: &[0, 3, 4, 4, 4, 4],
        starts: &[108, 191, 274, 353, 432, 511],
        lengths: &[6, 6, 4, 6, 5, 6],
        xs: &[0, 4, 738_886, 738_961, 739_052, 739_143],
        ys: &[0, 0, 738_961, 739_052, 739_143, 739_234],
        owners: &[0, 1, 1, 1, 1, 1],
    };
    assert_eq!(block.columns(), columns);
    assert_eq!(rows(&block)[2], [4, 274, 4, 738_886, 738_961, 1]);
}

#[test]
fn a_block_without_rows_has_empty_columns() {
    let mut bytes = p10([0; 3])[..104].to_vec();
    bytes.extend([0; 16]);
    let mut tables = Tables::default();
    let block = Block::read(2, &bytes, None, &mut tables).expect("an accepted block");
    assert_eq!((rows(&block).len(), block.columns().kinds), (0, &[][..]));
    assert_eq!(block.name(0).map_err(|refusal| refusal.kind()), Err(RefusalKind::RowsMalformed));
}

#[test]
fn rows_of_an_earlier_block_in_the_same_table_are_not_told() {
    let (bytes, _) = capture();
    let mut feed = Feed::new(Limits::default());
    assert_eq!(feed.feed(&bytes).map(|fed| fed.step), Ok(Step::Done));
    let names = |feed: &Feed| {
        let block = feed.block().expect("a block");
        (0..8).map(|row| block.name(row).map(String::from).map_err(|refusal| refusal.kind())).collect::<Vec<_>>()
    };
    let none = Err(RefusalKind::RowsMalformed);
    let six = ["ES.c.0", "ES.c.0", "3403", "206299", "95414", "314863"].map(|name| Ok(name.to_string()));
    assert_eq!(names(&feed), [&six[..], &[none.clone(), none.clone()]].concat());
    feed.reset();
    assert_eq!(feed.feed(&common::stream_of(2, &p10(*b"ES\0"))).map(|fed| fed.step), Ok(Step::Done));
    assert_eq!(names(&feed), [&[Ok("ES".to_string())][..], &vec![none; 7]].concat());
    let block = feed.block().expect("a block");
    assert_eq!(rows(&block), [[0, 108, 2, 0, 0, 0]]);
    assert_eq!((block.symbols().collect::<Vec<_>>(), block.intervals().count()), (vec!["ES"], 0));
}

#[test]
fn the_rows_of_a_block_are_those_of_a_table_of_any_height() {
    let (sheet, mut tables, mut read) = (gen::plain_sheet(), Tables::default(), 0);
    let own = Sheet::from(sheet.0);
    for seed in 0..2_000 {
        let mut r = Rng::new(seed);
        let version = 1 + r.below(4) as u8;
        let bytes = gen::stream(&mut r, &sheet, version);
        let Ok(block) = Block::read(version, &bytes[8..], &own, &mut tables) else { continue };
        let told = rows(&block);
        let items = block.layout().map_or(0, |layout| layout.numbers().len());
        let (lent, out) = (vec![seed as u32; 6 * told.len() + r.below(60)], [0; 16]);
        let answer = calls::block(version, &bytes[8..], &sheet.0, &lent, &vec![0; items], &out);
        assert_eq!((answer.number, answer.out[10] as usize), (0, told.len()), "seed {seed}");
        assert_eq!(answer.symbology, cells::filled(&lent, &told), "seed {seed}");
        for (row, [_, start, length, ..]) in told.iter().enumerate() {
            let name = &block.bytes()[*start as usize..][..*length as usize];
            assert_eq!(block.name(row).map(str::as_bytes), Ok(name), "row {row} of seed {seed}");
        }
        read += told.len();
    }
    assert!(read > 1_000, "{read} rows");
}
