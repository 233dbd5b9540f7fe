//! House files: calls that can be made again and again, and what a plain program of Rust does in their place, the reader apart.
use super::shapes;
use dbn_start::{ffi, HouseFile, Limits, Sheet};
use std::hint::black_box;

const BLOCK: usize = ffi::HOUSE_BLOCK;
const PAYLOAD: usize = ffi::HOUSE_PAYLOAD;
/// Where the check words of a block stand.
const CHECK: usize = 508;

/// A version 4 start of so many bytes: little to read, and the rest stands after the symbology, where the reader skips it.
pub fn skipped(length: usize) -> Vec<u8> {
    let mut block = shapes::block4(&[1, 0, 0, 0, 0, 0, 0, 0]);
    let read = block.len();
    block.extend((read..length - 8).map(|i| (i * 7 + i / 251) as u8));
    shapes::stream_of(4, &block)
}

/// A start and its house file, with what is lent to store and to load it.
#[derive(Clone)]
pub struct House {
    stream: Vec<u8>,
    file: Vec<u8>,
    output: Vec<u8>,
    store: Vec<u8>,
    symbology: Vec<u32>,
    layout: Vec<u32>,
    sheet: Sheet,
}

impl House {
    /// The tables have as many rows as the start.
    pub fn of(stream: Vec<u8>) -> Self {
        let sheet = shapes::sheet();
        let file = HouseFile::store(&stream, &sheet).expect("an accepted start");
        let loaded = HouseFile::load(&file, &sheet, Limits { bytes: stream.len(), ..Limits::default() });
        let loaded = loaded.expect("a sound file");
        let symbology = vec![0; loaded.block().rows().len() * ffi::SYMBOLOGY_ROW];
        let layout = vec![0; loaded.block().layout().map_or(0, |layout| layout.numbers().len())];
        let (output, store) = (vec![0; file.len()], vec![0; stream.len()]);
        Self { stream, file, output, store, symbology, layout, sheet }
    }

    /// The start is stored by the library.
    pub fn store(&mut self) {
        let (stream, mut out) = (black_box(&self.stream), [0; 16]);
        let (at, n, to, room) = (stream.as_ptr(), stream.len(), self.output.as_mut_ptr(), self.output.len());
        // SAFETY: every pointer is to a buffer of the given length, and no two overlap.
        let number = unsafe { ffi::dbn_house_store(at, n, self.sheet.numbers(), to, room, &mut out) };
        assert_eq!((number, out[0] as usize), (0, room));
    }

    /// The file is loaded by the library.
    pub fn load(&mut self) {
        let (file, mut out) = (black_box(&self.file), [0; 20]);
        // SAFETY: every pointer is to a buffer of the given length, and no two overlap.
        let number = unsafe {
            ffi::dbn_house_load(
                file.as_ptr(),
                file.len(),
                self.store.as_mut_ptr(),
                self.store.len(),
                self.sheet.numbers(),
                self.symbology.as_mut_ptr(),
                self.symbology.len(),
                self.layout.as_mut_ptr(),
                self.layout.len(),
                &mut out,
            )
        };
        assert_eq!((number, out[17] as usize), (0, self.store.len()));
    }

    /// The start is packed by the plain program.
    pub fn plain_store(&mut self) {
        pack(black_box(&self.stream), black_box(&mut self.output));
    }

    /// The file is unpacked by the plain program.
    pub fn plain_load(&mut self) {
        let length = unpack(black_box(&self.file), black_box(&mut self.store));
        assert_eq!(length, Some(self.store.len()));
    }

    /// Both programs store the same bytes and load them.
    pub fn agreed(&mut self) {
        for work in [Self::store, Self::plain_store] {
            self.output.fill(0xEE);
            work(self);
            assert!(self.output == self.file, "the same file");
        }
        for work in [Self::load, Self::plain_load] {
            self.store.fill(0xEE);
            work(self);
            assert!(self.store == self.stream, "the same start");
        }
    }
}

/// The check words of a block, with one reduction each: the sums of all running sums of 254 words fit into 32 bits.
#[inline]
fn sums(block: &[u8]) -> [u8; 4] {
    let (mut a, mut b) = (0, 0);
    for word in block[..CHECK].chunks_exact(2) {
        a += u32::from(u16::from_le_bytes([word[0], word[1]]));
        b += a;
    }
    let [a, b] = [a, b].map(|sum| ((sum % 65_535) as u16).to_le_bytes());
    [a[0], a[1], b[0], b[1]]
}

/// Copies bytes into blocks, each with its index, its used bytes and its check words.
fn pack(bytes: &[u8], output: &mut [u8]) {
    for ((part, block), index) in bytes.chunks(PAYLOAD).zip(output.chunks_exact_mut(BLOCK)).zip(0u16..) {
        block[..2].copy_from_slice(&index.to_le_bytes());
        block[2..4].copy_from_slice(&(part.len() as u16).to_le_bytes());
        block[4..4 + part.len()].copy_from_slice(part);
        block[4 + part.len()..CHECK].fill(0);
        let check = sums(block);
        block[CHECK..].copy_from_slice(&check);
    }
}

/// Copies what the blocks hold, each of which must be sound. How many bytes that is.
fn unpack(file: &[u8], store: &mut [u8]) -> Option<usize> {
    let (blocks, mut length) = (file.len() / BLOCK, 0);
    for (block, index) in file.chunks_exact(BLOCK).zip(0u16..) {
        let used = u16::from_le_bytes([block[2], block[3]]) as usize;
        let last = index as usize + 1 == blocks;
        let filled = if last { (1..=PAYLOAD).contains(&used) } else { used == PAYLOAD };
        let sound = sums(block) == block[CHECK..] && block[..2] == index.to_le_bytes();
        if !sound || !filled || block[4 + used..CHECK].iter().any(|&byte| byte != 0) {
            return None;
        }
        store.get_mut(length..length + used)?.copy_from_slice(&block[4..4 + used]);
        length += used;
    }
    Some(length)
}
