//! Records: a stream of them, a plain loop that hands them over, and the copy that any store costs.
use std::hint::black_box;

/// Bytes of a record, and of a piece of the stream.
const RECORD: usize = 56;
const PIECE: usize = 64 << 10;

/// 16 MiB of records of 56 bytes, up to the last whole one.
pub fn stream() -> Vec<u8> {
    let records = (16 << 20) / RECORD;
    let mut bytes: Vec<u8> = (0..records * RECORD).map(|i| (i * 7 + i / RECORD) as u8).collect();
    bytes.chunks_mut(RECORD).for_each(|record| record[0] = (RECORD / 4) as u8);
    bytes
}

/// The stream in pieces.
pub fn pieces(stream: &[u8]) -> impl Iterator<Item = &[u8]> {
    black_box(stream).chunks(PIECE)
}

/// What is done with each record, the same for all: its rtype and its last byte are added up.
#[inline]
pub fn fold(sum: u64, record: &[u8]) -> u64 {
    let record = black_box(record);
    sum + record[1] as u64 + record[record.len() - 1] as u64
}

/// What a plain loop of Rust does in the place of `Frames`: one record in a store, its header first, then the rest of it.
struct Plain {
    store: [u8; 1_020],
    held: usize,
    refused: bool,
}

impl Plain {
    fn new() -> Self {
        Self { store: [0; 1_020], held: 0, refused: false }
    }

    /// The next record, by one copy where that is wanted, nothing is held and the piece has all of it, else by stages.
    #[inline]
    fn next<'a, const AT_ONCE: bool>(&'a mut self, piece: &mut &[u8]) -> Result<Option<&'a [u8]>, u32> {
        if AT_ONCE && self.held == 0 && !self.refused && piece.len() >= 16 {
            let whole = 4 * piece[0] as usize;
            if whole >= 16 && whole <= piece.len() {
                let (record, later) = piece.split_at(whole);
                self.store[..whole].copy_from_slice(record);
                *piece = later;
                return Ok(Some(&self.store[..whole]));
            }
        }
        self.by_stages(piece)
    }

    /// Takes what the next record still needs. 100 for one that is too short, and ever after.
    #[inline]
    fn by_stages<'a>(&'a mut self, piece: &mut &[u8]) -> Result<Option<&'a [u8]>, u32> {
        if self.refused {
            return Err(100);
        }
        if self.held < 16 {
            self.take(piece, 16);
            if self.held < 16 {
                return Ok(None);
            }
        }
        let whole = 4 * self.store[0] as usize;
        if whole < 16 {
            self.refused = true;
            return Err(100);
        }
        self.take(piece, whole);
        if self.held < whole {
            return Ok(None);
        }
        self.held = 0;
        Ok(Some(&self.store[..whole]))
    }

    /// Holds bytes of the piece, up to so many in all.
    #[inline]
    fn take(&mut self, piece: &mut &[u8], end: usize) {
        let (now, later) = piece.split_at(piece.len().min(end - self.held));
        self.store[self.held..self.held + now.len()].copy_from_slice(now);
        self.held += now.len();
        *piece = later;
    }
}

/// Every record by the plain loop; `AT_ONCE`, by one copy where the piece has all of a record.
pub fn plain<const AT_ONCE: bool>(stream: &[u8]) -> u64 {
    let (mut plain, mut sum) = (Plain::new(), 0);
    for mut piece in pieces(stream) {
        while let Some(record) = plain.next::<AT_ONCE>(&mut piece).expect("a record") {
            sum = fold(sum, record);
        }
    }
    sum
}

/// The bare copy of each record into a store.
pub fn copied(stream: &[u8]) -> u64 {
    let mut store = [0; RECORD];
    black_box(stream).chunks_exact(RECORD).fold(0, |sum, record| {
        store.copy_from_slice(record);
        fold(sum, &store)
    })
}
