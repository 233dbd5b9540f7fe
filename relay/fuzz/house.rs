//! House files: a start is stored as a plain program packs it, and a file is loaded as a plain program unpacks it and the feed then reads it.
#![allow(dead_code)]
use super::{
    calls::{self, FeedAnswer},
    checks::{marked, marked_out, tell},
    gen::{self, Rng, Sheet},
    Count,
};
use dbn_start::ffi::PLACE;

/// The bytes of a block, those of its payload, and where its check words stand.
pub const BLOCK: usize = 512;
pub const PAYLOAD: usize = 504;
pub const CHECK: usize = 508;
/// The most blocks of a file.
pub const MOST: usize = 65_536;

/// The number of two bytes.
pub fn word(block: &[u8], at: usize) -> usize {
    u16::from_le_bytes([block[at], block[at + 1]]) as usize
}

pub fn put_word(block: &mut [u8], at: usize, number: usize) {
    block[at..at + 2].copy_from_slice(&(number as u16).to_le_bytes());
}

/// The check words of a block: the sum of the words before them, and the sum of the running sums.
pub fn sums(block: &[u8]) -> [usize; 2] {
    (0..CHECK).step_by(2).fold([0, 0], |[a, b], at| {
        let a = (a + word(block, at)) % 65_535;
        [a, (b + a) % 65_535]
    })
}

/// Gives a block the check words of its bytes.
pub fn seal(block: &mut [u8]) {
    let [a, b] = sums(block);
    put_word(block, CHECK, a);
    put_word(block, CHECK + 2, b);
}

/// The file of some bytes.
pub fn pack(bytes: &[u8]) -> Vec<u8> {
    let mut file = Vec::new();
    for (index, part) in bytes.chunks(PAYLOAD).enumerate() {
        let mut block = vec![0; BLOCK];
        put_word(&mut block, 0, index);
        put_word(&mut block, 2, part.len());
        block[4..4 + part.len()].copy_from_slice(part);
        seal(&mut block);
        file.extend(block);
    }
    file
}

/// The bytes of a file, or what refuses it.
pub fn unpack(file: &[u8]) -> Result<Vec<u8>, u32> {
    let blocks = file.len() / BLOCK;
    if file.is_empty() || file.len() % BLOCK != 0 || blocks > MOST {
        return Err(130);
    }
    let mut bytes = Vec::new();
    for (index, block) in file.chunks(BLOCK).enumerate() {
        let (used, last) = (word(block, 2), index + 1 == blocks);
        let counted = if last { (1..=PAYLOAD).contains(&used) } else { used == PAYLOAD };
        if [word(block, CHECK), word(block, CHECK + 2)] != sums(block) {
            return Err(131);
        }
        if word(block, 0) != index {
            return Err(132);
        }
        if !counted || block[4 + used..CHECK].iter().any(|&byte| byte != 0) {
            return Err(133);
        }
        bytes.extend(&block[4..4 + used]);
    }
    Ok(bytes)
}

/// A start, whole, damaged, cut or with more after it, stored and loaded; then its file, or another, bent and loaded.
pub fn files(r: &mut Rng, sheet: &Sheet, count: &mut Count) {
    let version = 1 + r.below(4) as u8;
    let mut bytes = gen::stream(r, sheet, version);
    for _ in 0..r.pick(&[0, 0, 0, 1, 2]) {
        bytes = gen::damage(r, &bytes);
    }
    match r.below(8) {
        0 => bytes.truncate(r.below(bytes.len() + 1)),
        1 => bytes.extend((0..1 + r.below(600)).map(|i| i as u8)),
        _ => {}
    }
    stored(r, sheet, &bytes, count);
    if bytes.is_empty() {
        return;
    }
    let mut file = pack(&bytes);
    loaded(r, sheet, &file, count);
    let place = r.below(file.len());
    let step = 1 + r.below(255) as u8;
    file[place] = file[place].wrapping_add(step);
    assert_eq!(loaded(r, sheet, &file, count), 131, "one changed byte");
    file[place] = file[place].wrapping_sub(step);
    for _ in 0..1 + r.below(3) {
        bend(r, &mut file);
    }
    loaded(r, sheet, &file, count);
}

/// The answer of the feed to bytes that are all held, in a store that begins with them. Bytes that are still needed are 134.
fn held(store: &[u8], length: usize, sheet: &Sheet, tables: [&[u32]; 2], out: &[u64; 20]) -> FeedAnswer {
    let mut fed = calls::feed(length as u64, store, &[], &sheet.0, tables[0], tables[1], out);
    if (fed.number, fed.out[18] > 0) == (0, true) {
        fed.number = 134;
    }
    fed
}

/// How long the start is that some bytes begin, where their prelude tells it, and not above a bound.
fn announced(bytes: &[u8]) -> Option<usize> {
    let length = u32::from_le_bytes(bytes.get(4..8)?.try_into().unwrap()) as usize;
    (length < 1 << 20).then_some(8 + length)
}

/// Bytes that are stored: refused as the feed refuses them, or the file that the plain program packs.
pub fn stored(r: &mut Rng, sheet: &Sheet, bytes: &[u8], count: &mut Count) -> u32 {
    let (file, out) = (pack(bytes), marked_out(r));
    let length = file.len() + r.pick(&[0, 0, 1, 700]);
    let output = marked(r, length, |x| x as u8);
    let a = calls::house_store(bytes, &sheet.0, &output, &out);
    tell(count, a.number, 0);
    let mut wanted = out;
    let mut store = bytes.to_vec();
    store.resize(announced(bytes).unwrap_or(0).max(bytes.len()).max(8), 0);
    let fed = held(&store, bytes.len(), sheet, [&[], &[]], &[0; 20]);
    let number = match fed.number {
        3 => 0,
        // A store for what the prelude announces would be very long.
        2 => 134,
        number => number,
    };
    assert_eq!(a.number, number, "the start of a house file");
    if number != 0 {
        if matches!(number, 10..=12 | 20..=55) {
            wanted[PLACE] = fed.out[PLACE];
        }
        assert_eq!((a.out, a.output), (wanted, output), "out and output after {number}");
        return number;
    }
    wanted[0] = file.len() as u64;
    assert_eq!(a.out, wanted, "out of a stored start");
    assert_eq!(a.output, [&file[..], &output[file.len()..]].concat(), "the file of a start");
    let short = &output[..r.pick(&[file.len() - 1, file.len() - 1, 0])];
    let b = calls::house_store(bytes, &sheet.0, short, &out);
    assert_eq!((b.number, b.out, &b.output[..]), (112, out, short), "an output that is too short");
    0
}

/// A file that is loaded: refused as the plain program refuses it, or its bytes at the front of the store, read as the feed reads them.
pub fn loaded(r: &mut Rng, sheet: &Sheet, file: &[u8], count: &mut Count) -> u32 {
    let bytes = unpack(file);
    let payload = bytes.as_deref().unwrap_or(&[]);
    let room = match r.below(8) {
        0 => r.below(payload.len() + 1),
        1 => payload.len().saturating_sub(1),
        2 => payload.len(),
        _ => announced(payload).unwrap_or(8).max(payload.len()) + r.below(6),
    };
    let (store, out) = (marked(r, room, |x| x as u8), marked_out(r));
    let (sn, ln) = (r.pick(&[0, 7, 60, 400, 400]), r.pick(&[0, 9, 100, 2_000, 2_000]));
    let (symbology, layout) = (marked(r, sn, |x| x as u32), marked(r, ln, |x| x as u32));
    let a = calls::house_load(file, &store, &sheet.0, &symbology, &layout, &out);
    tell(count, a.number, 0);
    let refused = bytes.as_ref().err().copied().or((payload.len() > room).then_some(1));
    let number = a.number;
    let wanted = match refused {
        Some(number) => FeedAnswer { number, out, store, symbology, layout },
        None => {
            let store = [payload, &store[payload.len()..]].concat();
            held(&store, payload.len(), sheet, [&symbology, &layout], &out)
        }
    };
    assert_eq!(a, wanted, "a house file");
    number
}

/// One change to a file, whose blocks mostly have the right check words then.
pub fn bend(r: &mut Rng, file: &mut Vec<u8>) {
    let blocks = file.len() / BLOCK;
    if blocks == 0 || r.one_in(12) {
        let length = r.pick(&[0, 1, 511, 512, 513, file.len() + 1, file.len() + 512, file.len().saturating_sub(1)]);
        return file.resize(length, 0);
    }
    let (one, two) = (r.below(blocks), r.below(blocks));
    let last = r.below(4) == 0;
    let block = &mut file[BLOCK * if last { blocks - 1 } else { one }..][..BLOCK];
    match r.below(8) {
        0 => put_word(block, 0, r.pick(&[0, 1, 255, 256, 65_535])),
        1 | 2 => put_word(block, 2, r.pick(&[0, 1, 503, 504, 505, 508, 65_535])),
        3 | 4 => {
            let at = (4 + word(block, 2) + r.below(30)).min(CHECK - 1);
            block[at] = r.byte();
        }
        5 => {
            // Words that the sums do not tell apart.
            let at = 4 + 2 * r.below(252);
            let number = if word(block, at) == 0 { 65_535 } else { 0 };
            return put_word(block, at, number);
        }
        6 => {
            let (from, to) = (BLOCK * one.min(two), BLOCK * one.max(two));
            return if from < to {
                file[from..to + BLOCK].rotate_left(BLOCK)
            } else {
                drop(file.drain(to..to + BLOCK))
            };
        }
        _ => block.iter_mut().for_each(|byte| *byte = r.byte()),
    }
    if !r.one_in(8) {
        seal(block);
    }
}
