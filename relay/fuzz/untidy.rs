//! What is untidy in a layout, by a plain walk, and layouts that are tidy but for a few things.
use super::gen::{self, Rng, Sheet, ENTRY};

/// A section of an accepted layout: of a record (0), a struct (1) or a label def (2), from its length on.
#[derive(Clone, Copy)]
pub struct Section {
    pub kind: usize,
    pub start: usize,
    pub end: usize,
}

fn number(bytes: &[u8], at: usize) -> usize {
    u16::from_le_bytes([bytes[at], bytes[at + 1]]) as usize
}

fn after_name(bytes: &[u8], at: usize) -> usize {
    at + bytes[at] as usize + 2
}

/// The sections of an accepted layout, and the place after the last.
pub fn sections(bytes: &[u8]) -> (Vec<Section>, usize) {
    let (mut sections, mut at) = (Vec::new(), 2);
    for kind in 0..3 {
        let count = number(bytes, at);
        at += 2;
        for _ in 0..count {
            let end = at + number(bytes, at);
            sections.push(Section { kind, start: at, end });
            at = end;
        }
    }
    (sections, at)
}

impl Section {
    /// How many entries or labels it has, and where the first begins.
    fn items(&self, bytes: &[u8]) -> (usize, usize) {
        let count = after_name(bytes, self.start + [16, 4, 2][self.kind]);
        (number(bytes, count), count + 2)
    }

    /// The skipped bytes of the entries of a record or struct, and the place after the names.
    fn skipped(&self, bytes: &[u8]) -> (Vec<usize>, usize) {
        let (count, first) = self.items(bytes);
        let end = first + count * ENTRY;
        let skipped = (first..end).filter(|at| (at - first) % ENTRY >= 11).collect();
        (skipped, (0..count).fold(end, |at, _| after_name(bytes, at)))
    }

    /// The codes of a label def, and the place after the labels.
    fn codes(&self, bytes: &[u8]) -> (Vec<usize>, usize) {
        let (count, mut at) = self.items(bytes);
        let mut codes = Vec::new();
        for _ in 0..count {
            codes.push(at);
            at = after_name(bytes, at + 2);
        }
        (codes, at)
    }

    /// What is untidy in it, each with its place, in any order.
    fn untidy(&self, bytes: &[u8]) -> Vec<(usize, u32)> {
        let (mut found, end) = if self.kind == 2 {
            let (codes, end) = self.codes(bytes);
            let fall = |two: &&[usize]| number(bytes, two[1]) <= number(bytes, two[0]);
            (codes.windows(2).filter(fall).map(|two| (two[1], 121)).collect::<Vec<_>>(), end)
        } else {
            let (skipped, end) = self.skipped(bytes);
            (skipped.into_iter().filter(|&at| bytes[at] != 0).map(|at| (at, 122)).collect(), end)
        };
        if end < self.end {
            found.push((end, 120));
        }
        found
    }
}

/// The first untidy thing of an accepted layout, its number and its place: the one with the lowest place.
pub fn first(bytes: &[u8]) -> Option<(u32, usize)> {
    let (sections, end) = sections(bytes);
    let mut found: Vec<_> = sections.iter().flat_map(|section| section.untidy(bytes)).collect();
    if end < bytes.len() {
        found.push((end, 123));
    }
    found.into_iter().min().map(|(place, number)| (number, place))
}

/// A layout that is accepted (nearly always) and its symbol width, tidy but for as many things as one of `times` says.
pub fn layout(r: &mut Rng, sheet: &Sheet, times: &[usize]) -> (Vec<u8>, u16) {
    let width = r.pick(&[0u16, 3, 8, 22, 71]);
    let (records, fields) = (r.below(4), r.below(9));
    let mut tree = gen::layout(r, sheet, width as usize, records, fields);
    tree.fill = false;
    tree.labels.iter_mut().for_each(|def| def.labels.sort());
    let mut bytes = tree.bytes(r);
    for _ in 0..r.pick(times) {
        spoil(r, &mut bytes);
    }
    (bytes, width)
}

/// Makes one thing untidy, where the layout has a place for it.
fn spoil(r: &mut Rng, bytes: &mut Vec<u8>) {
    let left: Vec<u8> = (0..1 + r.below(3)).map(|_| r.pick(&[0, 0, 1, 255])).collect();
    let (sections, _) = sections(bytes);
    let which = r.below(4);
    let of_kind = |section: &&Section| which != 1 || section.kind == 2;
    let sections: Vec<_> = sections.iter().filter(of_kind).collect();
    let Some(section) = sections.get(r.below(sections.len())).filter(|_| which < 3) else {
        return bytes.extend(left);
    };
    match (which, section.kind) {
        (1, _) => {
            let (codes, _) = section.codes(bytes);
            swap_codes(r, bytes, &codes);
        }
        (2, 0 | 1) => {
            let (skipped, _) = section.skipped(bytes);
            skipped.get(r.below(skipped.len())).into_iter().for_each(|&at| bytes[at] = r.pick(&[1, 128, 255]));
        }
        _ => {
            let length = (section.end - section.start + left.len()) as u16;
            bytes[section.start..section.start + 2].copy_from_slice(&length.to_le_bytes());
            bytes.splice(section.end..section.end, left);
        }
    }
}

/// Two codes of a label def change places.
fn swap_codes(r: &mut Rng, bytes: &mut [u8], codes: &[usize]) {
    if codes.is_empty() {
        return;
    }
    let (one, two) = (codes[r.below(codes.len())], codes[r.below(codes.len())]);
    (0..2).for_each(|i| bytes.swap(one + i, two + i));
}
