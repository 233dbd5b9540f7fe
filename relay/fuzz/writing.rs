//! The block writer: what was read is written and reads back the same; whatever else it is lent is refused with nothing written, or reads back.
use super::{
    calls::{self, BlockAnswer, Start},
    checks::{marked, marked_out, rising, tell},
    columns::{self, Row},
    gen::{Rng, Sheet},
    starts::{self, Read},
    tidy, Count,
};
use dbn_start::{
    ffi::{DATASET_START, LAYOUT_ROW, SYMBOLOGY_ROW},
    Block, Refusal, Tables,
};

/// The fields of a block that was read are written with its rows, and then bent.
pub fn accepted(
    r: &mut Rng,
    version: u8,
    block: &[u8],
    sheet: &Sheet,
    a: &BlockAnswer,
    rows: &[Row],
    count: &mut Count,
) {
    let layout = &a.layout[..a.out[11] as usize * LAYOUT_ROW];
    let read = Read { version, block, out: &a.out, rows, layout };
    let mut start = read.moved(r);
    let written = write(r, &start, sheet, read.most(), count);
    match &written {
        Ok(stream) => {
            assert!(rising(layout), "label codes that do not rise");
            short(r, &start, sheet, stream);
        }
        Err(number) => assert!(*number == 95 && !rising(layout), "a block that was read is refused by {number}"),
    }
    let (sheet_of_package, mut tables) = (dbn_start::Sheet::from(sheet.0), Tables::default());
    let block = Block::read(version, block, &sheet_of_package, &mut tables).expect("a block that was read");
    let by_package = block.to_builder().write(&sheet_of_package);
    assert_eq!(by_package.map_err(Refusal::number), written, "what the package writes");
    for _ in 0..1 + r.below(2) {
        starts::bend(r, &mut start);
    }
    let most = r.pick(&[read.most(), 2 * read.most(), read.most() / 2]);
    let _ = write(r, &start, sheet, most, count);
}

/// Any fields, columns, rows and text.
pub fn any(r: &mut Rng, text: &[u8], sheet: &Sheet, count: &mut Count) {
    let small = |x: u64| [x % 3, x % 5, x % 26, x % 300, x][(x >> 60) as usize % 5];
    let mut fields = [0; 16].map(|_| small(r.next()));
    if r.one_in(2) {
        // What is present is small, and all else is absent.
        fields[1..6].fill(0);
        (fields[6], fields[7], fields[12]) = (r.below(13) as u64, r.below(2) as u64, 0);
    }
    let (sn, ln) = (r.below(40), r.pick(&[0, 0, 0, 9, 18, 17]));
    let symbology = marked(r, sn, |x| small(x) as u32);
    let layout = marked(r, ln, |x| (x >> 40) as u32 % [3, 16, 300][x as usize % 3]);
    let rows = r.pick(&[0, 0, 1, 2, sn as u64 / 6, sn as u64 / 6 + 1, u64::MAX]);
    let start = Start { version: r.byte() % 6, fields, symbology, rows, layout, text: text.to_vec() };
    let most = r.below(2_000);
    let _ = write(r, &start, sheet, most, count);
}

/// The start that is written to an output of so many bytes, which reads back the same, or the number that refuses it.
fn write(r: &mut Rng, start: &Start, sheet: &Sheet, most: usize, count: &mut Count) -> Result<Vec<u8>, u32> {
    let (output, out) = (marked(r, most, |x| x as u8), marked_out(r));
    let a = calls::write_block(start, &sheet.0, &output, &out);
    tell(count, a.number, 0);
    if !(1..=4).contains(&start.version) {
        assert_eq!(a.number, 11, "version {}", start.version);
    }
    assert!(
        !matches!(a.number, 1..=10 | 12 | 24 | 26..=28 | 30 | 33..=35 | 37..=39 | 44..=55 | 96..=101 | 120..),
        "{}",
        a.number
    );
    if a.number != 0 {
        assert_eq!((a.output, a.out), (output, out), "output and out after {}", a.number);
        return Err(a.number);
    }
    let length = a.out[0] as usize;
    assert_eq!(a.output[length..], output[length..], "output past the written length");
    assert_eq!(a.out[1..], out[1..], "out of the block writer");
    let stream = a.output[..length].to_vec();
    same_back(start, sheet, &stream);
    Ok(stream)
}

/// An output that is a byte short is left as it was, and one that is just long enough gives the same bytes.
fn short(r: &mut Rng, start: &Start, sheet: &Sheet, stream: &[u8]) {
    let (output, out) = (marked(r, stream.len(), |x| x as u8), marked_out(r));
    let (_, less) = output.split_last().expect("a stream has bytes");
    let a = calls::write_block(start, &sheet.0, less, &out);
    assert_eq!((a.number, &a.output[..], a.out), (112, less, out), "an output one byte short");
    let a = calls::write_block(start, &sheet.0, &output, &out);
    assert_eq!((a.number, &a.output[..]), (0, stream), "an output that is just long enough");
}

/// A start that was written reads back with the same fields, rows and texts, starts apart, its layout is tidy, and it is then written as the same
/// bytes.
fn same_back(start: &Start, sheet: &Sheet, stream: &[u8]) {
    let (prelude, block) = stream.split_at(8);
    assert_eq!((&prelude[..3], prelude[3]), (&b"DBN"[..], start.version), "the prelude");
    assert_eq!(prelude[4..], (block.len() as u32).to_le_bytes(), "the block's length");
    let (rows, items) = (start.rows as usize, start.layout.len() / LAYOUT_ROW);
    let (first, second) = (vec![0; rows * SYMBOLOGY_ROW], vec![0; start.layout.len()]);
    let back = calls::block(start.version, block, &sheet.0, &first, &second, &[0; 16]);
    assert_eq!(back.number, 0, "what was written reads back");
    assert_eq!(back.out[..10], start.fields[..10], "the fields");
    assert_eq!(back.out[10..], [rows as u64, items as u64, start.fields[12], 0, 0, 0], "the rows and what is present");
    let part = |bytes: &[u8], at: u64, length: u64| bytes[at as usize..(at + length) as usize].to_vec();
    assert_eq!(part(block, 0, back.out[0]), part(&start.text, start.fields[DATASET_START], back.out[0]), "the dataset");
    for (one, two) in columns::rows(&start.symbology, rows).iter().zip(columns::rows(&back.symbology, rows)) {
        assert_eq!((one[0], &one[2..]), (two[0], &two[2..]), "a row, its start apart");
        let [was, is] =
            [(one, &start.text[..]), (&two, block)].map(|(row, bytes)| part(bytes, row[1].into(), row[2].into()));
        assert_eq!(was, is, "the text of a row");
    }
    for (one, two) in start.layout.chunks(LAYOUT_ROW).zip(back.layout.chunks(LAYOUT_ROW)) {
        let from = if one[0] == 11 { 1 } else { 2 };
        assert_eq!((one[0], &one[from..]), (two[0], &two[from..]), "a layout row, its start apart");
        if one[0] != 11 {
            let [was, is] = [(one, &start.text[..]), (two, &block[104..])]
                .map(|(row, bytes)| part(bytes, row[1].into(), row[2].into()));
            assert_eq!(was, is, "a name");
        }
    }
    if start.version == 4 {
        let length = u32::from_le_bytes(block[100..104].try_into().unwrap()) as usize;
        tidy::written(&block[104..104 + length], back.out[8] as u16, sheet);
    }
    again(start.version, sheet, stream, &back);
}

/// What was written is read and written again, its block as the text: the same bytes.
fn again(version: u8, sheet: &Sheet, stream: &[u8], back: &BlockAnswer) {
    let block = &stream[8..];
    let mut layout = back.layout.clone();
    for row in layout.chunks_mut(LAYOUT_ROW).filter(|row| row[0] != 11) {
        row[1] += 104;
    }
    let start = Start {
        version,
        fields: back.out,
        symbology: back.symbology.clone(),
        rows: back.out[10],
        layout,
        text: block.to_vec(),
    };
    let a = calls::write_block(&start, &sheet.0, &vec![0; stream.len()], &[0; 16]);
    assert_eq!((a.number, &a.output[..]), (0, stream), "what was written is read and written again");
}
