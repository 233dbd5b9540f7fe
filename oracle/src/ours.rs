//! What the C functions answer, held to their own form: what a refusal leaves, what `out` names, where rows end.
use crate::{
    calls, columns,
    gen::{Rng, Sheet},
    of_crate::Answer,
    paper,
    walk::{Values, ROW},
};

/// Numbers to tell a write by.
pub fn marks<const N: usize>(r: &mut Rng) -> [u64; N] {
    [0; N].map(|_| r.next() | 1)
}

pub fn table(r: &mut Rng, length: usize) -> Vec<u32> {
    (0..length).map(|_| r.next() as u32).collect()
}

/// The refusal of a number, with the place that `out` tells where the number has one.
fn refused(number: u32, out: &[u64]) -> Answer {
    Answer::Refused(number, has_place(number).then(|| out[PLACE] as usize))
}

/// Whether `out` after a refusal is what it was before, its place apart where the number has one.
fn kept(number: u32, out: &[u64], before: &[u64]) -> bool {
    (0..16).all(|i| out[i] == before[i] || i == PLACE && has_place(number))
}

/// Where `out` has the place of a refusal.
const PLACE: usize = 13;

fn has_place(number: u32) -> bool {
    matches!(number, 10..=12 | 20..=55 | 120..=123)
}

/// The values that sixteen numbers and two tables tell.
fn values(out: &[u64], symbology: &[u32], layout: &[u32]) -> Values {
    let present = |bit: u64, value: u64| (out[12] & bit != 0).then_some(value);
    Values {
        dataset_len: out[0] as usize,
        schema: present(1, out[1]).map(|x| x as u16),
        start: out[2],
        end: present(2, out[3]),
        limit: present(4, out[4]),
        stype_in: present(8, out[5]).map(|x| x as u8),
        stype_out: out[6] as u8,
        ts_out: out[7] != 0,
        width: out[8] as usize,
        layout_version: out[9] as u16,
        symbology: columns::rows(symbology, out[10] as usize),
        layout: layout[..out[11] as usize * 9].chunks(9).map(|row| row.try_into().unwrap()).collect(),
    }
}

/// The answer after each piece of a stream that is cut at these places, with a store and tables that are long enough.
pub fn feed(r: &mut Rng, stream: &[u8], cuts: &[usize], sheet: &Sheet) -> Vec<Answer> {
    let declared = stream.get(4..8).map_or(0, |x| u32::from_le_bytes(x.try_into().unwrap()) as usize);
    let mut store: Vec<u8> = (0..8 + declared + r.below(4)).map(|_| r.byte()).collect();
    // The rows needed, which the answer to empty tables tells.
    let bare = calls::feed(0, &store, stream, &sheet.0, &[], &[], &marks(r));
    let rows = if bare.number == 3 { [bare.out[10] as usize, bare.out[11] as usize] } else { [0, 0] };
    let (sn, ln) = (rows[0] * ROW + r.below(12), rows[1] * 9 + r.below(20));
    let (symbology, layout) = (table(r, sn), table(r, ln));
    let (mut answers, mut at, mut held) = (Vec::new(), 0, 0);
    for &cut in cuts.iter().chain([&stream.len()]) {
        let piece = &stream[at..cut];
        at = cut;
        let out = marks(r);
        let fed = calls::feed(held, &store, piece, &sheet.0, &symbology, &layout, &out);
        let answer = match fed_answer(&fed, held, &store, piece, &symbology, &layout, &out, rows) {
            Ok(answer) => answer,
            Err(text) => Answer::Odd(text.into()),
        };
        if let Answer::Accepted(values) = &answer {
            let block = &stream[8..8 + declared];
            if let Err(text) = names(r, block, &fed.symbology, values) {
                answers.push(Answer::Odd(text));
                break;
            }
        }
        let waits = matches!(answer, Answer::Needs(_));
        answers.push(answer);
        if !waits {
            break;
        }
        (store, held) = (fed.store, fed.out[17]);
    }
    answers
}

/// The answer to a block given whole, with tables that are long enough.
pub fn block(r: &mut Rng, version: u8, block: &[u8], sheet: &Sheet) -> Answer {
    let bare = calls::block(version, block, &sheet.0, &[], &[], &marks(r));
    let rows = if bare.number == 3 { [bare.out[10] as usize, bare.out[11] as usize] } else { [0, 0] };
    let (sn, ln) = (rows[0] * ROW + r.below(12), rows[1] * 9 + r.below(20));
    let (symbology, layout, out) = (table(r, sn), table(r, ln), marks(r));
    let a = calls::block(version, block, &sheet.0, &symbology, &layout, &out);
    if a.number != 0 {
        let kept = kept(a.number, &a.out, &out) && a.symbology == symbology && a.layout == layout;
        return if kept { refused(a.number, &a.out) } else { Answer::Odd("tables or out after a refusal".into()) };
    }
    let [s, l] = rows;
    let past = columns::kept(&a.symbology, &symbology, s) && a.layout[l * 9..] == layout[l * 9..];
    let values = values(&a.out, &a.symbology, &a.layout);
    if !past || a.out[10..12] != [s as u64, l as u64] || values.out() != a.out {
        return Answer::Odd("rows needed and given, past the last row, or numbers of what is absent".into());
    }
    Answer::Accepted(Box::new(values))
}

#[allow(clippy::too_many_arguments)]
fn fed_answer(
    fed: &calls::FeedAnswer,
    held: u64,
    store: &[u8],
    piece: &[u8],
    symbology: &[u32],
    layout: &[u32],
    out: &[u64; 20],
    rows: [usize; 2],
) -> Result<Answer, &'static str> {
    let need = |true_: bool, text| if true_ { Ok(()) } else { Err(text) };
    let (taken, now, needed) = (fed.out[16] as usize, fed.out[17] as usize, fed.out[18]);
    let from = held as usize;
    need(taken <= piece.len() && now == from + taken, "taken or held count")?;
    need(fed.store[..from] == store[..from] && fed.store[now..] == store[now..], "the store outside what was taken")?;
    need(fed.store[from..now] == piece[..taken], "the bytes taken")?;
    need(fed.out[19] == out[19], "out[19]")?;
    if fed.number == 0 && needed == 0 {
        let [s, l] = rows;
        need(fed.out[10..12] == [s as u64, l as u64], "the rows needed and the rows given")?;
        need(columns::kept(&fed.symbology, symbology, s), "past the last row of a column, or after the columns")?;
        need(fed.layout[l * 9..] == layout[l * 9..], "past the last layout row")?;
        let values = values(&fed.out, &fed.symbology, &fed.layout);
        need(values.out() == fed.out[..16], "numbers of what is absent")?;
        return Ok(Answer::Accepted(Box::new(values)));
    }
    need(kept(fed.number, &fed.out, out), "out after a refusal, or before the end")?;
    need(fed.symbology == symbology && fed.layout == layout, "tables after a refusal, or before the end")?;
    if fed.number == 0 {
        need(taken == piece.len(), "a feed that needs more takes all")?;
        Ok(Answer::Needs(needed))
    } else {
        need(needed == 0, "a refusal needs nothing")?;
        Ok(refused(fed.number, &fed.out))
    }
}

/// Names of some rows: the span that the row has, in the block or in its layout. The symbology table is the one that was lent.
fn names(r: &mut Rng, block: &[u8], symbology: &[u32], values: &Values) -> Result<(), String> {
    let layout: Vec<u32> = values.layout.concat();
    let part =
        if values.layout_version == 0 && layout.is_empty() { &[][..] } else { crate::of_crate::layout_of(block) };
    names_of(r, block, symbology, &values.symbology)?;
    names_of(r, part, &layout, &values.layout)
}

/// Names of some of the rows that a table has, each of N numbers, and of the first that it cannot hold.
fn names_of<const N: usize>(r: &mut Rng, bytes: &[u8], table: &[u32], rows: &[[u32; N]]) -> Result<(), String> {
    for _ in 0..2.min(rows.len()) {
        let index = r.below(rows.len());
        let row = &rows[index];
        let wanted = if row[0] == 11 { (90, [0, 0]) } else { (0, [row[1] as u64, row[2] as u64]) };
        if calls::name(bytes, table, N, index as u64) != wanted {
            return Err(format!("the name of row {index}"));
        }
    }
    if calls::name(bytes, table, N, (table.len() / N) as u64) != (90, [0, 0]) {
        return Err("a name past the table".into());
    }
    Ok(())
}

/// The answer to a layout, with a table that is long enough.
pub fn layout(r: &mut Rng, bytes: &[u8], width: u16, sheet: &Sheet) -> Answer {
    let bare = calls::layout(bytes, width, &sheet.0, &[], &marks(r));
    let rows = if bare.number == 3 { bare.out[11] as usize } else { 0 };
    let length = rows * 9 + r.below(20);
    let (before, out) = (table(r, length), marks(r));
    let a = calls::layout(bytes, width, &sheet.0, &before, &out);
    if calls::layout_plain(bytes, width, &sheet.0, &out) != (a.number, a.out) {
        return Answer::Odd("the two engines differ".into());
    }
    if a.number != 0 {
        let kept = kept(a.number, &a.out, &out) && a.rows == before;
        return if kept { refused(a.number, &a.out) } else { Answer::Odd("a table or out after a refusal".into()) };
    }
    if (0..16).any(|i| i != 9 && i != 11 && a.out[i] != out[i]) {
        return Answer::Odd("out of a layout".into());
    }
    if a.out[11] as usize != rows || a.rows[rows * 9..] != before[rows * 9..] {
        return Answer::Odd("rows needed and given, or past the last row".into());
    }
    let layout = a.rows[..rows * 9].chunks(9).map(|row| row.try_into().unwrap()).collect();
    Answer::Accepted(Box::new(Values { layout_version: a.out[9] as u16, layout, ..Default::default() }))
}

/// Whether a layout is tidy, once it is seen that `out` is what it was, its place apart.
pub fn tidy(bytes: &[u8], width: u16, sheet: &Sheet) -> Result<paper::Verdict, String> {
    let before = std::array::from_fn(|i| (1 << 40) + i as u64);
    let (number, out) = calls::tidy(bytes, width, &sheet.0, &before);
    if !kept(number, &out, &before) {
        return Err("out of a layout that may be tidy".into());
    }
    Ok(match number {
        0 => Ok(()),
        _ => Err((number, has_place(number).then(|| out[PLACE] as usize))),
    })
}

/// What the block writer gives, with an output of `room` bytes: the bytes, or the number and an output that is untouched.
pub fn write_start(
    r: &mut Rng,
    start: &calls::Start,
    sheet: &Sheet,
    room: usize,
) -> Result<Result<Vec<u8>, u32>, String> {
    let (output, out): (Vec<u8>, _) = ((0..room).map(|_| r.byte()).collect(), marks(r));
    told_by_a_writer(calls::write_block(start, &sheet.0, &output, &out), &output, &out)
}

/// What the writer gives, with an output of `room` bytes: the bytes, or the number and an output that is untouched.
pub fn write(
    r: &mut Rng,
    rows: &[u32],
    text: &[u8],
    version: u16,
    width: u16,
    sheet: &Sheet,
    room: usize,
) -> Result<Result<Vec<u8>, u32>, String> {
    let (output, out): (Vec<u8>, _) = ((0..room).map(|_| r.byte()).collect(), marks(r));
    told_by_a_writer(calls::write(rows, text, version, width, &sheet.0, &output, &out), &output, &out)
}

/// The bytes that a writer gives, or its number, once it is seen that it left all else as it was.
fn told_by_a_writer(a: calls::WriteAnswer, output: &[u8], out: &[u64; 16]) -> Result<Result<Vec<u8>, u32>, String> {
    if a.out[1..] != out[1..] {
        return Err("out of the writer".into());
    }
    if a.number != 0 {
        let kept = a.output == output && a.out[0] == out[0];
        return if kept { Ok(Err(a.number)) } else { Err("an output after a refusal".into()) };
    }
    let length = a.out[0] as usize;
    if length > output.len() || a.output[length..] != output[length..] {
        return Err("an output past the written length".into());
    }
    Ok(Ok(a.output[..length].to_vec()))
}
