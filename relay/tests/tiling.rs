//! Both engines for 81 to 83, and the writer, give one answer on fields in any order, with gaps and with overlaps.
mod common;
#[allow(dead_code)]
#[path = "../measure/shapes.rs"]
mod shapes;

use dbn_start::{check_layout_plain, write_layout, Layout, Refusal, Tables};
use shapes::{sheet, spanned, tiled, Order, HEADER};

const ORDERS: [Order; 3] = [Order::Rising, Order::Reverse, Order::Shuffled];

/// The answer of the search, which the plain engine gives too: 0, or the number that refuses.
fn number(bytes: &[u8]) -> u32 {
    let (sheet, mut table) = (sheet(), Tables::default());
    let read = Layout::read(bytes, 71, &sheet, &mut table).map(|layout| (layout.version(), layout.rows().len()));
    assert_eq!(check_layout_plain(bytes, 71, &sheet), read);
    read.map_or_else(Refusal::number, |_| 0)
}

/// The answer on one record of these fields, which the writer gives too.
fn record(base: u16, spans: &[(u16, u16)]) -> u32 {
    let answer = number(&spanned(base, &[spans.to_vec()]));
    let mut rows = vec![10, 0, 0, 1, 1, base as u32, spans.len() as u32, 0, 0];
    for (id, &(at, size)) in spans.iter().enumerate() {
        let flags = if at < base { 0 } else { 64 };
        rows.extend([11, id as u32, at as u32, size as u32, shapes::TEXT as u32, flags, 0, 0, 0]);
    }
    rows.extend([12, 0, 0, 0, 0, 0, 0, 0, 0].repeat(spans.len()));
    let mut output = vec![0; 1 << 16];
    let written = write_layout(&rows, b"", 1, 71, &sheet(), &mut output).map_or_else(Refusal::number, |_| 0);
    assert_eq!(written, answer, "the writer");
    answer
}

/// The header, then `base` fields and `past` extensions of `size` bytes each.
fn fields(base: u16, past: u16, size: u16) -> (u16, Vec<(u16, u16)>) {
    let mut spans = vec![(0, HEADER)];
    spans.extend((0..base + past).map(|i| (HEADER + i * size, size)));
    (HEADER + base * size, spans)
}

#[test]
fn tiled_fields_are_accepted_in_any_order() {
    for (n, size) in
        [(1, 8), (5, 8), (63, 8), (64, 8), (200, 8), (1023, 8), (1024, 8), (1600, 8), (3600, 1), (64, 1000)]
    {
        for order in ORDERS {
            for records in [1, 3] {
                assert_eq!(number(&tiled(n, size, records, order)), 0, "{n} fields of {size}, {order:?}");
            }
        }
    }
    for (base, past) in [(1, 1), (10, 10), (100, 1), (1, 100), (700, 900)] {
        for order in ORDERS {
            let (base, mut spans) = fields(base, past, 8);
            order.put(&mut spans);
            assert_eq!(record(base, &spans), 0);
        }
    }
}

#[test]
fn a_gap_an_overlap_and_a_short_base_each_have_their_number() {
    for (base, past) in [(4, 4), (100, 100), (700, 900)] {
        let (end, spans) = fields(base, past, 8);
        for order in ORDERS {
            let told = |bent: &[(u16, u16)]| {
                let mut bent = bent.to_vec();
                order.put(&mut bent);
                record(end, &bent)
            };
            for k in [0, 1, base / 2, base - 1] {
                let mut gapped = spans.clone();
                gapped.remove(k as usize);
                assert_eq!(told(&gapped), 81, "base field {k} gone");
            }
            let mut short = spans.clone();
            short.remove(base as usize);
            assert_eq!(told(&short), 82, "the last base field gone, extensions or not");
            for k in [base + 1, base + past / 2, base + past - 1] {
                let mut gapped = spans.clone();
                gapped.remove(k as usize);
                assert_eq!(told(&gapped), 83, "extension {k} gone");
            }
            let mut last = spans.clone();
            last.pop();
            assert_eq!(told(&last), 0, "the last extension gone");
            for (k, number) in [(1, 81), (base / 2, 81), (base, 81), (base + 1, 83), (base + past, 83)] {
                let mut twice = spans.clone();
                twice.push(spans[k as usize]);
                assert_eq!(told(&twice), number, "field {k} twice");
                let mut wide = spans.clone();
                wide[k as usize].1 -= 1;
                wide[k as usize].0 += 1;
                assert_eq!(told(&wide), number, "a gap of one byte before field {k}");
            }
            let mut both = spans.clone();
            both.remove(2);
            both.push(spans[base as usize + 2]);
            assert_eq!(told(&both), 81, "the base first");
        }
    }
}

#[test]
fn one_record_whose_search_gives_up_among_many() {
    let (base, spans) = fields(60, 0, 8);
    let mut records = vec![spans.clone(); 200];
    records[150].reverse();
    assert_eq!(number(&spanned(base, &records)), 0);
    let (base, spans) = fields(1100, 0, 8);
    let mut records = vec![spans.clone(); 40];
    Order::Shuffled.put(&mut records[17]);
    assert_eq!(number(&spanned(base, &records)), 0);
    records[39].pop();
    assert_eq!(number(&spanned(base, &records)), 82);
    records[30].remove(500);
    assert_eq!(number(&spanned(base, &records)), 81, "the first record that is refused");
}
