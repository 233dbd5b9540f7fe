//! The texts of a block: after a NUL only NULs follow, and a text that breaks this is refused at its first byte, by its own number.
use super::{
    calls::{self, BlockAnswer},
    columns::Row,
    gen::{Rng, Sheet},
};
use dbn_start::ffi::PLACE;

/// A text of an accepted block: its first byte, the length of its name, its width, and the two numbers that refuse it, as no UTF-8
/// and for what comes after a NUL.
struct Text {
    start: usize,
    length: usize,
    width: usize,
    numbers: [u32; 2],
}

/// The widths of the dataset and of a symbol.
fn widths(version: u8, block: &[u8]) -> [usize; 2] {
    let number = |place: usize| u16::from_le_bytes([block[place], block[place + 1]]) as usize;
    match version {
        1 => [16, 22],
        4 => [38, number(67)],
        _ => [16, number(45)],
    }
}

/// A refusal by 29, 41, 42 or 43 is at a text that is UTF-8 and has more than NULs after a NUL.
pub fn refused(version: u8, block: &[u8], number: u32, place: u64) {
    let width = match number {
        29 => widths(version, block)[0],
        41..=43 => widths(version, block)[1],
        _ => return,
    };
    let text = &block[place as usize..][..width];
    assert!(dbn_start::is_text(text), "{number} at {place}, where no UTF-8 is");
    let mut after = text.iter().skip_while(|&&byte| byte != 0);
    assert!(after.any(|&byte| byte != 0), "{number} at {place}, where only NULs follow a NUL");
}

/// Every name of an accepted block holds no NUL, and the rest of its width is NULs. One of its texts is then spoiled.
pub fn accepted(r: &mut Rng, version: u8, block: &[u8], sheet: &Sheet, a: &BlockAnswer, rows: &[Row]) {
    let [dataset, symbol] = widths(version, block);
    assert_eq!(a.out[8] as usize, symbol, "the symbol width");
    let mut texts = vec![Text { start: 0, length: a.out[0] as usize, width: dataset, numbers: [20, 29] }];
    for row in rows {
        let numbers = [[32, 41], [32, 41], [32, 41], [36, 42], [40, 43]][row[0] as usize];
        texts.push(Text { start: row[1] as usize, length: row[2] as usize, width: symbol, numbers });
    }
    for text in &texts {
        let (name, rest) = block[text.start..][..text.width].split_at(text.length);
        assert!(!name.contains(&0), "the name at {} holds a NUL", text.start);
        assert!(rest.iter().all(|&byte| byte == 0), "the name at {} ends before its text does", text.start);
    }
    let one = r.below(texts.len());
    spoiled(r, version, block, sheet, &texts[one]);
}

/// Another byte than NUL after a NUL of an accepted text: as all before it is accepted, the text is refused, at its first byte.
fn spoiled(r: &mut Rng, version: u8, block: &[u8], sheet: &Sheet, text: &Text) {
    let after = text.length + 1;
    if after >= text.width {
        return;
    }
    let place = text.start + after + r.below(text.width - after);
    let mut bytes = block.to_vec();
    for (byte, number) in [0xFF, 1 + r.byte() % 127].into_iter().zip(text.numbers) {
        bytes[place] = byte;
        let a = calls::block(version, &bytes, &sheet.0, &[], &[], &[0; 16]);
        assert_eq!((a.number, a.out[PLACE]), (number, text.start as u64), "an accepted block with {byte} at {place}");
    }
}
