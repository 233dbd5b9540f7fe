//! Names without the NULs at their end, at every width from 0 to 80 and with the last letter at every place.
mod common;
use common::plain;
use dbn_start::{Block, Tables};

/// A version 2 block of this width: as many symbols in the first list, and one mapping for each, without intervals.
fn block(width: usize, symbols: &[Vec<u8>]) -> Vec<u8> {
    let count = (symbols.len() as u32).to_le_bytes();
    let mut out = vec![0; 104];
    out[45..47].copy_from_slice(&(width as u16).to_le_bytes());
    // no list can have a symbol of width 0
    if width == 0 {
        out.extend([0; 4]);
    } else {
        out.extend(count);
        symbols.iter().for_each(|symbol| out.extend(symbol));
    }
    out.extend([0; 8]);
    out.extend(count);
    for symbol in symbols {
        out.extend(symbol);
        out.extend([0; 4]);
    }
    out
}

/// Symbols of a width: NULs only, then one for each place of the last letter.
fn symbols(width: usize) -> Vec<Vec<u8>> {
    let letters = |count: usize| [vec![b'A'; count], vec![0; width - count]].concat();
    (0..=width).map(letters).collect()
}

#[test]
fn names_lose_the_nuls_at_their_end_and_no_letter() {
    for width in 0..=80 {
        let symbols = symbols(width);
        let bytes = block(width, &symbols);
        let mut tables = Tables::default();
        let read = Block::read(2, &bytes, &plain(), &mut tables).expect("an accepted block");
        let names: Vec<&str> = read.mappings().map(|mapping| mapping.raw_symbol).collect();
        let wanted: Vec<&str> =
            symbols.iter().map(|symbol| std::str::from_utf8(symbol).expect("ASCII").trim_end_matches('\0')).collect();
        assert_eq!(names, wanted, "width {width}");
        assert!(names.iter().all(|name| !name.contains('\0')), "width {width}");
        let listed: Vec<&str> = read.symbols().collect();
        assert_eq!(listed, if width == 0 { vec![] } else { wanted }, "width {width}, the list");
    }
}

#[test]
fn a_nul_before_the_last_letter_is_41_wherever_the_two_stand() {
    for width in 0..=80 {
        for (count, symbol) in symbols(width).into_iter().enumerate() {
            for nul in 0..count.saturating_sub(1) {
                let mut broken = symbol.clone();
                broken[nul] = 0;
                let bytes = block(width, &[symbol.clone(), broken]);
                let told = Block::read(2, &bytes, None, &mut Tables::default()).expect_err("a refusal");
                let wanted = (41, Some(108 + width));
                assert_eq!((told.number(), told.place()), wanted, "width {width}, {count} letters, a NUL at {nul}");
            }
        }
    }
}
