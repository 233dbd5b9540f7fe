//! Inputs aimed at numbers that damage alone seldom gives: well formed but for one thing.
use crate::gen::{self, LayoutTree, Rng, Sheet};

/// A stream start with a code that is not known, a symbology section that is not spanned, a symbology cut short, or its last
/// mapping; a layout or symbology length that is missing, or that goes past the end; a layout of [`layout`]; or a text of
/// [`after_nul`].
pub fn stream(r: &mut Rng, sheet: &Sheet) -> Vec<u8> {
    let which = r.below(13);
    if which >= 11 {
        return after_nul(r, sheet);
    }
    let version = match which {
        3 | 8..=10 => 4,
        4 | 5 => 1 + r.below(3) as u8,
        _ => 1 + r.below(4) as u8,
    };
    let width = r.pick(&[1u16, 3, 8, 22, 71]);
    let mut head = gen::head(r, version, width);
    match which {
        0 => head.schema = r.pick(&[20, 21, 255, 256, 65534]),
        1 => head.stype_in = 13 + r.below(242) as u8,
        2 => head.stype_out = 13 + r.below(243) as u8,
        _ => {}
    }
    let mut mappings: Vec<usize> = (0..r.below(3)).map(|_| r.below(3)).collect();
    if which == 5 {
        mappings = vec![1 + r.below(3), 0];
    }
    let lists = [0; 3].map(|_| r.below(3));
    let mut symbology = gen::symbology(r, head.width as usize, lists, &mappings);
    match which {
        3 => symbology.extend((0..1 + r.below(4)).map(|_| r.byte()).collect::<Vec<_>>()),
        4 => symbology.truncate(r.below(symbology.len())),
        5 => symbology.truncate(symbology.len() - 1 - r.below(head.width as usize + 4)),
        _ => {}
    }
    let layout = match version {
        4 if which == 10 => layout(r, sheet).0,
        4 => gen::layout(r, sheet, head.width as usize, 1, 3).bytes(r),
        _ => Vec::new(),
    };
    let after = if which >= 4 { 0 } else { r.below(3) };
    let mut block = gen::block(r, &head, &layout, &symbology, after);
    bend_lengths(r, which, &mut block, layout.len(), symbology.len());
    gen::stream_of(version, &block)
}

/// A block whose layout length is missing (6) or goes past the end (7), or whose symbology length does (8, 9).
fn bend_lengths(r: &mut Rng, which: usize, block: &mut Vec<u8>, layout: usize, symbology: usize) {
    match which {
        6 => block.truncate(100 + r.below(4)),
        7 => {
            let past = (block.len() - 104 + 1 + r.below(300)) as u32;
            block[100..104].copy_from_slice(&past.to_le_bytes());
        }
        8 => block.truncate(104 + layout + r.below(4)),
        9 => block.truncate(104 + layout + 4 + r.below(symbology)),
        _ => {}
    }
}

/// A stream start in which more than NULs follow a NUL of the dataset, a list's symbol, a raw symbol or an interval's symbol.
fn after_nul(r: &mut Rng, sheet: &Sheet) -> Vec<u8> {
    let (version, width) = (1 + r.below(4) as u8, r.pick(&[2u16, 3, 8, 22, 71]));
    let head = gen::head(r, version, width);
    let (lists, mappings) = ([0; 3].map(|_| 1 + r.below(2)), [1 + r.below(2), r.below(2)]);
    let symbology = gen::symbology(r, head.width as usize, lists, &mappings);
    let layout = match version {
        4 => gen::layout(r, sheet, head.width as usize, 1, 3).bytes(r),
        _ => Vec::new(),
    };
    let mut block = gen::block(r, &head, &layout, &symbology, 0);
    let texts = &gen::texts(&head, block.len() - symbology.len(), lists, &mappings)[r.below(4)];
    let text = texts[r.below(texts.len())].clone();
    gen::after_nul(r, &mut block[text]);
    gen::stream_of(version, &block)
}

/// A layout, and its width, with a short section, an rtype twice, a base that is not of 8, a decimal's scale, a gap before the
/// extensions, or a section that ends before its contents do.
pub fn layout(r: &mut Rng, sheet: &Sheet) -> (Vec<u8>, u16) {
    let width = r.pick(&[0u16, 3, 8, 22, 71]);
    let (records, fields) = (2 + r.below(2), 2 + r.below(8));
    let mut tree = gen::layout(r, sheet, width as usize, records, fields);
    let which = r.below(7);
    bend(r, sheet, &mut tree, which);
    let mut bytes = tree.bytes(r);
    match which {
        0 if !tree.records.is_empty() => bytes[4..6].copy_from_slice(&[r.below(2) as u8, 0]),
        5 | 6 => shorten(r, &mut bytes),
        _ => {}
    }
    (bytes, width)
}

/// Gives one section of a layout a length below its own.
fn shorten(r: &mut Rng, bytes: &mut [u8]) {
    let u16_at = |p: usize| u16::from_le_bytes([bytes[p], bytes[p + 1]]) as usize;
    let (mut sections, mut p) = (Vec::new(), 2);
    for _ in 0..3 {
        let count = u16_at(p);
        p += 2;
        for _ in 0..count {
            sections.push(p);
            p += u16_at(p);
        }
    }
    if let Some(&at) = sections.get(r.below(sections.len())) {
        let length = (2 + r.below(u16_at(at) - 2)) as u16;
        bytes[at..at + 2].copy_from_slice(&length.to_le_bytes());
    }
}

fn bend(r: &mut Rng, sheet: &Sheet, tree: &mut LayoutTree, which: usize) {
    if tree.records.is_empty() {
        return;
    }
    let last = tree.records.len() - 1;
    match which {
        1 => tree.records[last].rtype = tree.records[r.below(last.max(1))].rtype,
        2 => tree.records[last].base += 1 + r.below(7) as u16,
        3 => {
            let decimals = tree.records.iter_mut().flat_map(|record| &mut record.fields);
            let scale = r.pick(&[0, 9, 0xF6, 0xF8]);
            decimals.filter(|field| field.type_id == sheet.decimal_id()).take(1).for_each(|field| field.scale = scale);
        }
        4 => {
            let record = &mut tree.records[last];
            let base = record.base;
            record.fields.iter_mut().filter(|field| field.offset >= base).for_each(|field| field.offset += 16);
        }
        _ => {}
    }
}

/// Rows of a label def whose section is about as long as a section can be, or of more labels, structs, label defs or records than can
/// be counted, and the text of their names.
pub fn rows(r: &mut Rng) -> (Vec<u32>, Vec<u8>) {
    if r.one_in(2) {
        // Two bytes for the length, two for the name, two for the count, and 259 for a label: 253 fit.
        let labels = 253 + r.below(2) as u32;
        let mut rows = vec![14, 0, 0, labels, 0, 0, 0, 0, 0];
        (0..labels).for_each(|code| rows.extend([15, 0, 255, code, 0, 0, 0, 0, 0]));
        return (rows, vec![b'x'; 255]);
    }
    let count = 65_535 + r.below(3) as u32;
    let one = r.pick(&[10, 13, 14, 15]);
    let mut rows = if one == 15 { vec![14, 0, 0, count, 0, 0, 0, 0, 0] } else { Vec::new() };
    for code in 0..count {
        let third = if one == 15 { code.min(65_535) } else { 0 };
        rows.extend([one, 0, 0, third, 0, 0, 0, 0, 0]);
    }
    (rows, Vec::new())
}
