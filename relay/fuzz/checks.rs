//! What must hold of every answer.
use super::{
    calls::{self, BlockAnswer, FeedAnswer},
    columns, days,
    gen::{self, Rng, Sheet},
    names, owners, texts, tidy, untidy, writing, Count,
};
use dbn_start::ffi::SYMBOLOGY_ROW;

/// A table, store or output full of marks, so that a write shows.
pub fn marked<T>(r: &mut Rng, length: usize, mark: impl Fn(u64) -> T) -> Vec<T> {
    (0..length).map(|_| mark(r.next())).collect()
}

pub fn marked_out<const N: usize>(r: &mut Rng) -> [u64; N] {
    [0; N].map(|_| r.next() | 1)
}

/// Counts an answer: 0 with nothing needed, 0 with bytes needed, or a refusal, whose number must be of the table.
pub fn tell(count: &mut Count, number: u32, needed: u64) {
    let table =
        [0..=3, 10..=13, 20..=45, 50..=55, 60..=64, 71..=83, 90..=96, 100..=101, 110..=112, 120..=123, 130..=134];
    assert!(table.iter().any(|numbers| numbers.contains(&number)), "{number} is no number of the table");
    count.calls += 1;
    match (number, needed) {
        (0, 0) => count.accepted += 1,
        (0, _) => count.waiting += 1,
        _ => count.refused += 1,
    }
}

/// What of `out` an answer of a block may change: a refusal that has a place tells it, and nothing else.
fn named(number: u32) -> std::ops::Range<usize> {
    match number {
        0 => 0..16,
        3 => 10..12,
        _ if has_place(number) => PLACE..PLACE + 1,
        _ => 0..0,
    }
}

/// Where `out` has the place of a refusal.
const PLACE: usize = 13;

fn has_place(number: u32) -> bool {
    matches!(number, 10..=12 | 20..=55 | 120..=123)
}

/// The place of a refusal lies in the prelude, or in the block or layout of so many bytes that was given. Only what does not fit may be
/// at its end. Where a number or a length has one place in a block of that version, it is that.
fn placed(number: u32, place: u64, length: usize, version: Option<u8>) {
    assert!(number < 90, "{number} is no reader's number");
    let place = place as usize;
    match number {
        10..=12 => assert_eq!(place, [0, 3, 4][number as usize - 10], "the place of {number}"),
        24 | 27 | 30 | 33 | 35 | 44 | 45 | 50 => assert!(place <= length, "{number} at {place} of {length}"),
        _ if has_place(number) => assert!(place < length, "{number} at {place} of {length}"),
        _ => {}
    }
    let Some(version @ 1..=4) = version else { return };
    let [schema, stype_in] = [[16, 50], [16, 42], [16, 42], [38, 64]][version as usize - 1];
    let fixed = match number {
        20 | 29 => 0,
        21 => schema,
        22 => stype_in,
        23 => stype_in + 1,
        24..=26 => 100,
        44 => 104,
        _ => return,
    };
    assert_eq!(place, fixed, "the place of {number} in a block of version {version}");
}

/// The lengths of two tables, and whether they are long enough for the rows.
fn tables(r: &mut Rng, rows: (usize, usize)) -> (usize, usize, bool) {
    let (s, l) = (rows.0 * SYMBOLOGY_ROW, rows.1 * 9);
    match r.below(6) {
        0 if s > 0 => (s - 1 - r.below(SYMBOLOGY_ROW), l + r.below(20), false),
        1 if l > 0 => (s + r.below(20), l - 1 - r.below(l.min(9)), false),
        2 => (s, l, true),
        _ => (s + r.below(40), l + r.below(20), true),
    }
}

/// One stream start, fed whole, fed in pieces, and read as a block.
pub fn stream(r: &mut Rng, sheet: &Sheet, count: &mut Count) {
    let version = 1 + r.below(4) as u8;
    let mut bytes = gen::stream(r, sheet, version);
    for _ in 0..r.pick(&[0, 0, 1, 1, 1, 2, 3]) {
        bytes = gen::damage(r, &bytes);
    }
    let declared = bytes.get(4..8).map_or(0, |x| u32::from_le_bytes(x.try_into().unwrap()) as usize);
    let room = if declared > 1 << 20 { 200 } else { 8 + declared };
    let room = if r.one_in(12) { r.below(room + 1) } else { room + r.below(6) };
    let store = marked(r, room, |x| x as u8);
    let out = marked_out(r);

    // With empty tables, to learn how many rows are needed.
    let bare = calls::feed(0, &store, &bytes, &sheet.0, &[], &[], &out);
    fed(&bare, 0, &store, &bytes, &[], &[], &out);
    tell(count, bare.number, bare.out[18]);
    let rows = if bare.number == 3 { (bare.out[10] as usize, bare.out[11] as usize) } else { (0, 0) };
    let (sn, ln, enough) = tables(r, rows);
    let symbology = marked(r, sn, |x| x as u32);
    let layout = marked(r, ln, |x| x as u32);

    let whole = calls::feed(0, &store, &bytes, &sheet.0, &symbology, &layout, &out);
    fed(&whole, 0, &store, &bytes, &symbology, &layout, &out);
    tell(count, whole.number, whole.out[18]);
    other_tables(&bare, &whole, enough);
    if (whole.number, whole.out[18]) == (0, 0) {
        assert_eq!((whole.out[10] as usize, whole.out[11] as usize), rows, "rows given are the rows needed");
    }
    cut(r, &bytes, sheet, &store, &symbology, &layout, &whole, count);
    if bytes.len() >= 8 && room >= 8 {
        prelude(r, &bytes, &whole, room);
    }
    if bytes.len() >= 8 + declared && room >= 8 + declared && declared >= 100 && &bytes[..3] == b"DBN" {
        block(r, &bytes, declared, sheet, &symbology, &layout, &whole, count);
    }
}

/// A stream that is lent no tables, and the same that is lent some, which may be long enough: tables matter for 3 alone, and for no place.
fn other_tables(bare: &FeedAnswer, lent: &FeedAnswer, enough: bool) {
    match bare.number {
        3 if enough => assert_eq!(lent.number, 0, "tables of the rows needed are enough"),
        3 => {
            assert_eq!(lent.number, 3, "a table shorter than the rows needed");
            assert_eq!(lent.out[10..12], bare.out[10..12], "rows needed");
        }
        other => {
            assert_eq!(lent.number, other, "tables matter for 3 alone");
            if has_place(other) {
                assert_eq!(lent.out[13], bare.out[13], "the place of {other} with other tables");
            }
        }
    }
}

/// What holds of every single feed.
fn fed(a: &FeedAnswer, held: usize, store: &[u8], piece: &[u8], symbology: &[u32], layout: &[u32], out: &[u64; 20]) {
    let [taken, now, needed] = [16, 17, 18].map(|i| a.out[i] as usize);
    assert!(taken <= piece.len(), "more taken than given");
    assert_eq!(now, held + taken, "held count");
    assert_eq!(a.out[19], out[19], "out[19] is nobody's");
    if taken > 0 {
        assert_eq!(a.store[..held], store[..held], "bytes held before");
        assert_eq!(a.store[held..now], piece[..taken], "bytes taken");
        assert_eq!(a.store[now..], store[now..], "store past the held bytes");
    } else {
        assert_eq!(a.store, store, "a feed that takes nothing");
    }
    let waits = a.number == 0 && needed > 0;
    if waits {
        assert_eq!(taken, piece.len(), "a feed that still needs bytes takes all");
    }
    if a.number != 0 {
        assert_eq!(needed, 0, "a refusal needs nothing");
    }
    if a.number != 0 || waits {
        assert_eq!(a.symbology, symbology, "symbology table after {}", a.number);
        assert_eq!(a.layout, layout, "layout table after {}", a.number);
    } else {
        only_rows(&a.out, [&a.symbology, symbology], [&a.layout, layout]);
    }
    let named = if waits { 0..0 } else { named(a.number) };
    for i in (0..16).filter(|i| !named.contains(i)) {
        assert_eq!(a.out[i], out[i], "out[{i}] after {}", a.number);
    }
    placed(a.number, a.out[PLACE], now.saturating_sub(8), a.store.get(3).copied().filter(|_| now >= 8));
}

/// The tables of an accepted block, each beside what was lent: no cell was written that is none of its rows'.
fn only_rows(out: &[u64], [symbology, lent]: [&[u32]; 2], [layout, before]: [&[u32]; 2]) {
    let (count, end) = (out[10] as usize, out[11] as usize * 9);
    assert!(columns::kept(symbology, lent, count), "past the last row of a column, or after the columns");
    assert_eq!(layout[end..], before[end..], "past the last layout row");
}

/// The same stream in pieces: the end is the same, and every count needed is the least.
#[allow(clippy::too_many_arguments)]
fn cut(
    r: &mut Rng,
    bytes: &[u8],
    sheet: &Sheet,
    store: &[u8],
    symbology: &[u32],
    layout: &[u32],
    whole: &FeedAnswer,
    count: &mut Count,
) {
    let most = r.pick(&[1, 3, 16, 100, 100, 400, 400]);
    let mut held = begun(store, symbology, layout);
    let (mut at, mut pieces) = (0, 0);
    loop {
        // Bytewise only so far, since a long stream would take long.
        let length = if pieces > 40 { bytes.len() } else { r.below(most + 1) };
        let piece = &bytes[at..(at + length).min(bytes.len())];
        let before = held.out[17] as usize;
        let out = marked_out(r);
        let next = calls::feed(before as u64, &held.store, piece, &sheet.0, &held.symbology, &held.layout, &out);
        fed(&next, before, &held.store, piece, &held.symbology, &held.layout, &out);
        tell(count, next.number, next.out[18]);
        held = next;
        at += piece.len();
        pieces += 1;
        let waits = held.number == 0 && held.out[18] > 0;
        if waits && r.one_in(4) {
            least(r, &held, sheet, count);
        }
        if !waits || at == bytes.len() {
            break;
        }
    }
    same_end(&held, whole);
    if held.number != 0 || held.out[18] == 0 {
        after_the_end(&held, &bytes[..bytes.len().min(30)], sheet);
    }
}

/// What a feed that has not begun has: nothing held, and what it is lent.
fn begun(store: &[u8], symbology: &[u32], layout: &[u32]) -> FeedAnswer {
    FeedAnswer {
        number: 0,
        out: [0; 20],
        store: store.to_vec(),
        symbology: symbology.to_vec(),
        layout: layout.to_vec(),
    }
}

/// A feed after the end takes nothing of the piece and gives the same.
fn after_the_end(held: &FeedAnswer, piece: &[u8], sheet: &Sheet) {
    let again = calls::feed(held.out[17], &held.store, piece, &sheet.0, &held.symbology, &held.layout, &held.out);
    assert_eq!((again.number, again.out[16]), (held.number, 0), "a feed after the end takes nothing");
    assert_eq!(again.out[..16], held.out[..16], "and gives the same");
    assert_eq!((&again.symbology, &again.layout), (&held.symbology, &held.layout), "and the same rows");
}

/// A stream in pieces ends as the whole one does, refused at the same place.
fn same_end(held: &FeedAnswer, whole: &FeedAnswer) {
    assert_eq!(held.number, whole.number, "the end of a cut stream");
    if has_place(held.number) {
        assert_eq!(held.out[PLACE], whole.out[PLACE], "the place of a cut stream");
    }
    assert_eq!(held.out[17..19], whole.out[17..19], "held and needed of a cut stream");
    assert_eq!(held.store, whole.store, "the store of a cut stream");
    assert_eq!(held.symbology, whole.symbology, "the symbology table of a cut stream");
    assert_eq!(held.layout, whole.layout, "the layout table of a cut stream");
    if (held.number, held.out[18]) == (0, 0) {
        assert_eq!(held.out[..16], whole.out[..16], "the fields of a cut stream");
    }
}

/// One byte less than the count needed never ends the stage, and that byte then does.
fn least(r: &mut Rng, held: &FeedAnswer, sheet: &Sheet, count: &mut Count) {
    let needed = held.out[18] as usize;
    if needed > 1 << 16 {
        return;
    }
    let piece = marked(r, needed, |x| x as u8);
    let (symbology, layout) = (&held.symbology, &held.layout);
    let out = marked_out(r);
    let less = calls::feed(held.out[17], &held.store, &piece[..needed - 1], &sheet.0, symbology, layout, &out);
    tell(count, less.number, less.out[18]);
    assert_eq!((less.number, less.out[18]), (0, 1), "one byte less ended the stage");
    let full = calls::feed(held.out[17], &held.store, &piece, &sheet.0, symbology, layout, &out);
    tell(count, full.number, full.out[18]);
    let stage_ended = full.number != 0 || full.out[18] == 0 || full.out[18] >= 100;
    assert!(stage_ended, "the bytes needed did not end the stage");
}

/// The verdict on the prelude is that of the feed.
fn prelude(r: &mut Rng, bytes: &[u8], whole: &FeedAnswer, room: usize) {
    let out = marked_out(r);
    let (number, told) = calls::prelude(bytes, &out);
    if number != 0 {
        assert_eq!(number, whole.number, "the prelude's refusal");
        assert_eq!((&told[..3], told[3]), (&out[..3], whole.out[PLACE]), "out after a refused prelude");
    } else {
        let length = u32::from_le_bytes(bytes[4..8].try_into().unwrap()) as u64;
        assert_eq!(told, [0, bytes[3] as u64, length, 0], "the prelude");
        assert_eq!(whole.number == 2, (room as u64) < 8 + length, "a store below 8 + length");
    }
    let short = r.below(8);
    assert_eq!(calls::prelude(&bytes[..short], &out), (0, [8 - short as u64, 0, 0, 0]), "a short prelude");
}

/// A whole block gets the answer of its stream, its layout the rows of the block, and its names lie in it.
#[allow(clippy::too_many_arguments)]
fn block(
    r: &mut Rng,
    bytes: &[u8],
    declared: usize,
    sheet: &Sheet,
    symbology: &[u32],
    layout: &[u32],
    whole: &FeedAnswer,
    count: &mut Count,
) {
    let version = bytes[3];
    let block = &bytes[8..8 + declared];
    let out = marked_out(r);
    let a = calls::block(version, block, &sheet.0, symbology, layout, &out);
    tell(count, a.number, 0);
    assert_eq!(a.number, whole.number, "a block and its stream");
    assert_eq!((&a.symbology, &a.layout), (&whole.symbology, &whole.layout), "the rows of a block and its stream");
    let mut wanted = out;
    wanted[named(a.number)].copy_from_slice(&whole.out[named(a.number)]);
    assert_eq!(a.out, wanted, "out of a block after {}", a.number);
    if a.number != 0 {
        texts::refused(version, block, a.number, a.out[PLACE]);
        return within(version, block, sheet, &out, a.number, a.out[PLACE]);
    }
    symbology_rows(r, version, block, sheet, &a, count);
    let items = a.out[11] as usize;
    if version < 4 {
        assert_eq!((a.out[9], items), (0, 0), "no layout below version 4");
        return;
    }
    let length = u32::from_le_bytes(block[100..104].try_into().unwrap()) as usize;
    let inner = &block[104..104 + length];
    let b = calls::layout(inner, a.out[8] as u16, &sheet.0, layout, &out);
    assert_eq!((b.number, b.out[9], b.out[11]), (0, a.out[9], a.out[11]), "a block's layout");
    assert_eq!(b.rows, a.layout, "the rows of a block's layout");
    names::accepted(r, inner, &a.layout, 9, items);
}

/// The symbology rows of an accepted block: their texts, their days, their owners and their names; and that the block is written.
fn symbology_rows(r: &mut Rng, version: u8, block: &[u8], sheet: &Sheet, a: &BlockAnswer, count: &mut Count) {
    let rows = columns::rows(&a.symbology, a.out[10] as usize);
    texts::accepted(r, version, block, sheet, a, &rows);
    days::accepted(block, &rows);
    owners::accepted(&rows);
    names::accepted(r, block, &a.symbology, SYMBOLOGY_ROW, rows.len());
    writing::accepted(r, version, block, sheet, a, &rows, count);
}

/// A layout that is refused in a block is refused by itself at the same byte, counted from the layout.
fn within(version: u8, block: &[u8], sheet: &Sheet, out: &[u64; 16], number: u32, place: u64) {
    let (4, 50..=55) = (version, number) else { return };
    let length = u32::from_le_bytes(block[100..104].try_into().unwrap()) as usize;
    let width = u16::from_le_bytes([block[67], block[68]]);
    let alone = calls::layout(&block[104..104 + length], width, &sheet.0, &[], out);
    assert_eq!((alone.number, alone.out[PLACE] + 104), (number, place), "a layout in a block and by itself");
}

/// One layout, bent or damaged.
pub fn layout(r: &mut Rng, sheet: &Sheet, count: &mut Count) {
    let (bytes, width) = gen::some_layout(r, sheet, &[0, 0, 0, 1, 1, 2]);
    one_layout(r, sheet, &bytes, width, count);
}

/// One layout, tidy but for a few things; of eight one has a byte changed.
pub fn spoiled_layout(r: &mut Rng, sheet: &Sheet, count: &mut Count) {
    let (mut bytes, width) = untidy::layout(r, sheet, &[0, 0, 1, 1, 2, 3]);
    if r.one_in(8) {
        let i = r.below(bytes.len());
        bytes[i] = r.byte();
    }
    one_layout(r, sheet, &bytes, width, count);
}

/// A layout: read, asked whether it is tidy, written back, and its rows bent and written.
fn one_layout(r: &mut Rng, sheet: &Sheet, bytes: &[u8], width: u16, count: &mut Count) {
    let out = marked_out(r);
    let bare = calls::layout(bytes, width, &sheet.0, &[], &out);
    tell(count, bare.number, 0);
    let rows = if bare.number == 3 { bare.out[11] as usize } else { 0 };
    let length = rows * 9 + r.below(20);
    let table = marked(r, length, |x| x as u32);
    if rows > 0 {
        let short = &table[..rows * 9 - 1];
        let a = calls::layout(bytes, width, &sheet.0, short, &out);
        assert_eq!((a.number, a.out[11]), (3, rows as u64), "a table one number short");
        assert_eq!(a.rows, short, "the table after 3");
    }
    let a = calls::layout(bytes, width, &sheet.0, &table, &out);
    tell(count, a.number, 0);
    assert_eq!(a.number, if bare.number == 3 { 0 } else { bare.number }, "tables matter for 3 alone");
    let plain = calls::layout_plain(bytes, width, &sheet.0, &out);
    assert_eq!(plain, (a.number, a.out), "either engine gives one answer");
    tell(count, tidy::asked(bytes, width, sheet, &a, &out), 0);
    told_by_a_layout(a.number, &a.out, &out, bytes.len());
    if a.number != 0 {
        assert_eq!(a.rows, table, "the table after {}", a.number);
        return;
    }
    assert_eq!(a.out[11] as usize, rows, "rows given are the rows needed");
    assert_eq!(a.rows[rows * 9..], table[rows * 9..], "past the last row");
    let version = a.out[9] as u16;
    let read = &a.rows[..rows * 9];
    names::accepted(r, bytes, &a.rows, 9, rows);
    write_back(r, sheet, read, bytes, version, width, count);
    let mut bent = read.to_vec();
    for _ in 0..1 + r.below(2) {
        bend_rows(r, &mut bent);
    }
    write_any(r, sheet, &bent, bytes, version, width, count);
}

/// What a layout of so many bytes tells in `out`: version and rows, or the place of a refusal that has one.
fn told_by_a_layout(number: u32, told: &[u64; 16], out: &[u64; 16], length: usize) {
    let named: &[usize] = match number {
        0 => &[9, 11],
        number if has_place(number) => &[PLACE],
        _ => &[],
    };
    for i in (0..16).filter(|i| !named.contains(i)) {
        assert_eq!(told[i], out[i], "out[{i}] of a layout after {number}");
    }
    placed(number, told[PLACE], length, None);
}

/// Rows that were read are written, but for label codes that do not rise, and read back the same, starts apart.
fn write_back(r: &mut Rng, sheet: &Sheet, rows: &[u32], bytes: &[u8], version: u16, width: u16, count: &mut Count) {
    let output = marked(r, bytes.len() + 4, |x| x as u8);
    let out = marked_out(r);
    let a = calls::write(rows, bytes, version, width, &sheet.0, &output, &out);
    tell(count, a.number, 0);
    if !rising(rows) {
        assert_eq!(a.number, 95, "label codes that do not rise");
        assert_eq!((a.output, a.out), (output, out), "output after 95");
        return;
    }
    assert_eq!(a.number, 0, "rows that were read are written");
    let length = a.out[0] as usize;
    assert!(length <= bytes.len(), "what is written is no longer than what was read");
    assert_eq!(a.output[length..], output[length..], "output past the written length");
    assert_eq!(a.out[1..], out[1..], "out of the writer");
    same_back(&a.output[..length], bytes, rows, sheet, version, width);
    if length > 0 {
        let short = &output[..length - 1];
        let b = calls::write(rows, bytes, version, width, &sheet.0, short, &out);
        assert_eq!((b.number, &b.output[..], b.out), (96, short, out), "an output one byte short");
    }
}

/// Any rows: a refusal leaves the output, and what is written reads back the same.
fn write_any(r: &mut Rng, sheet: &Sheet, rows: &[u32], text: &[u8], version: u16, width: u16, count: &mut Count) {
    let output = marked(r, text.len() * 2 + 60, |x| x as u8);
    let out = marked_out(r);
    let a = calls::write(rows, text, version, width, &sheet.0, &output, &out);
    tell(count, a.number, 0);
    if a.number != 0 {
        assert_eq!((&a.output, a.out), (&output, out), "output after {}", a.number);
        return;
    }
    let length = a.out[0] as usize;
    assert_eq!(a.output[length..], output[length..], "output past the written length");
    same_back(&a.output[..length], text, rows, sheet, version, width);
}

/// Written bytes are tidy, and read back as the same version, rows and names, starts apart.
fn same_back(written: &[u8], text: &[u8], rows: &[u32], sheet: &Sheet, version: u16, width: u16) {
    tidy::written(written, width, sheet);
    let table = vec![0; rows.len()];
    let back = calls::layout(written, width, &sheet.0, &table, &[0; 16]);
    assert_eq!((back.number, back.out[9]), (0, version as u64), "what was written reads back");
    assert_eq!(back.out[11] as usize, rows.len() / 9, "as many rows");
    for (one, two) in rows.chunks(9).zip(back.rows.chunks(9)) {
        let from = if one[0] == 11 { 1 } else { 2 };
        assert_eq!((one[0], &one[from..]), (two[0], &two[from..]), "a row read back");
        if one[0] != 11 {
            let name = |row: &[u32], bytes: &[u8]| bytes[row[1] as usize..(row[1] + row[2]) as usize].to_vec();
            assert_eq!(name(one, text), name(two, written), "a name read back");
        }
    }
}

/// Whether the codes of every label def rise.
pub fn rising(rows: &[u32]) -> bool {
    rows.chunks(9).zip(rows.chunks(9).skip(1)).all(|(a, b)| a[0] != 15 || b[0] != 15 || a[3] < b[3])
}

/// A change of one number, a row more, a row less, two rows swapped, or a length that is not of nine.
fn bend_rows(r: &mut Rng, rows: &mut Vec<u32>) {
    let n = rows.len() / 9;
    if n == 0 {
        rows.extend(marked(r, 9, |x| (x % 16) as u32));
        return;
    }
    let (i, j) = (r.below(n), r.below(n));
    match r.below(10) {
        0 => {
            rows.drain(i * 9..i * 9 + 9);
        }
        1 => {
            let row: Vec<u32> = rows[i * 9..i * 9 + 9].to_vec();
            rows.splice(j * 9..j * 9, row);
        }
        2 => {
            for k in 0..9 {
                rows.swap(i * 9 + k, j * 9 + k);
            }
        }
        3 => rows.truncate(r.below(rows.len())),
        4 => rows[i * 9] = 9 + r.below(8) as u32,
        5 => rows[i * 9 + 8] = r.below(2) as u32,
        6 => rows[i * 9 + 1 + r.below(2)] = r.pick(&[0, 1, 2, 255, 256, u32::MAX, 0x8000_0000]),
        7 => {
            let number = &mut rows[i * 9 + 1 + r.below(8)];
            *number = number.wrapping_add(r.pick(&[1, u32::MAX, 65536, 256]));
        }
        _ => rows[i * 9 + 1 + r.below(8)] = r.next() as u32 % r.pick(&[4, 300, 65536, 70000]),
    }
}

/// Any state, any tables, any rows: the same call gives the same answer, and a refusal leaves what was lent.
pub fn anything(r: &mut Rng, sheet: &Sheet, count: &mut Count) {
    let length = r.below(300);
    let mut store = marked(r, length, |x| x as u8);
    if r.one_in(2) {
        let version = 1 + r.below(4) as u8;
        let good = gen::stream(r, sheet, version);
        let n = good.len().min(store.len());
        store[..n].copy_from_slice(&good[..n]);
    }
    let length = r.below(120);
    let piece = marked(r, length, |x| x as u8);
    let held = if r.one_in(3) { r.next() >> r.below(64) } else { r.below(store.len() + 3) as u64 };
    let (sn, ln) = (r.below(40), r.below(40));
    let (symbology, layout) = (marked(r, sn, |x| x as u32), marked(r, ln, |x| x as u32));
    let out = marked_out(r);
    let a = calls::feed(held, &store, &piece, &sheet.0, &symbology, &layout, &out);
    tell(count, a.number, a.out[18]);
    if held > store.len() as u64 {
        assert_eq!((a.number, a.out[16], a.out[17]), (1, 0, held), "held beyond the store");
        assert_eq!(a.store, store, "the store after 1");
    } else {
        fed(&a, held as usize, &store, &piece, &symbology, &layout, &out);
        if store.len() < 8 {
            assert_eq!(a.number, 2, "a store below 8");
        }
    }
    assert_eq!(a, calls::feed(held, &store, &piece, &sheet.0, &symbology, &layout, &out), "the same call again");

    let version = r.byte() % 7;
    any_block(r, version, &store, sheet, &symbology, &layout, count);
    names::any(r, &store, count);
    let length = r.pick(&[0, 9, 18, 27, 26]);
    let rows = marked(r, length, |x| (x >> 40) as u32 % [3, 16, 300][x as usize % 3]);
    write_any(r, sheet, &rows, &store, version as u16, piece.len() as u16, count);
    days::any(r);
    writing::any(r, &store, sheet, count);
}

/// Any bytes as a block of any version: a refusal leaves what was lent, and has its place.
fn any_block(
    r: &mut Rng,
    version: u8,
    block: &[u8],
    sheet: &Sheet,
    symbology: &[u32],
    layout: &[u32],
    count: &mut Count,
) {
    let out = marked_out(r);
    let b = calls::block(version, block, &sheet.0, symbology, layout, &out);
    tell(count, b.number, 0);
    if !(1..=4).contains(&version) {
        assert_eq!(b.number, 11, "version {version}");
    } else if block.len() < 100 {
        assert_eq!(b.number, 13, "a block below 100 bytes");
    }
    if b.number != 0 {
        assert_eq!((&b.symbology[..], &b.layout[..]), (symbology, layout), "tables after {}", b.number);
        for i in (0..16).filter(|i| !named(b.number).contains(i)) {
            assert_eq!(b.out[i], out[i], "out[{i}] of a block after {}", b.number);
        }
        placed(b.number, b.out[PLACE], block.len(), Some(version));
    } else {
        only_rows(&b.out, [&b.symbology, symbology], [&b.layout, layout]);
    }
    texts::refused(version, block, b.number, b.out[PLACE]);
}
