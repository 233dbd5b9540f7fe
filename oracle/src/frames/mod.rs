//! The comparison of frames: made streams of records of versions 1 to 3, each after a stream start, cut at random places and given to
//! `dbn_feed` and `dbn_frame`, to the crate's own decoder and to a plain program; and single calls with any store and held count,
//! which the crate has no word for.
mod of_crate;
mod ours;
mod paper;
mod tally;

use crate::{
    calls,
    gen::{self, Rng},
};
use of_crate::Way;
use paper::{Framed, HEADER, LONGEST};
use std::panic::{catch_unwind, AssertUnwindSafe};
use tally::{Beside, Tally};

/// A stream: an accepted start, records after it, the places where it is cut, and the length of the store for its frames.
pub struct Made {
    version: u8,
    bytes: Vec<u8>,
    /// Where the records begin.
    start: usize,
    cuts: Vec<usize>,
    store: usize,
}

/// What is told after a piece: how many frames were complete by then, and what the bytes after them come to.
#[derive(Debug, Clone, PartialEq, Eq)]
pub struct Piece {
    frames: usize,
    end: Framed,
}

/// What a stream comes to.
#[derive(Debug, Clone, PartialEq, Eq, Default)]
pub struct Told {
    /// After each piece. A refusal stands for the rest.
    pieces: Vec<Piece>,
    /// The rtype byte and the bytes of every frame.
    frames: Vec<(u8, Vec<u8>)>,
    /// The bytes after the last frame. After a refusal no more of them than a header, which is what was taken.
    left: Vec<u8>,
}

impl Made {
    fn pieces(&self) -> impl Iterator<Item = &[u8]> {
        let ends = self.cuts.iter().copied().chain([self.bytes.len()]);
        let starts = [0].into_iter().chain(self.cuts.iter().copied());
        starts.zip(ends).map(|(start, end)| &self.bytes[start..end])
    }

    fn records(&self) -> &[u8] {
        &self.bytes[self.start..]
    }

    /// What the stream comes to by the plain program, which reads all bytes given so far as a whole, in a store of so many bytes.
    fn paper(&self, store: usize) -> Told {
        let mut told = Told::default();
        for end in self.cuts.iter().copied().chain([self.bytes.len()]) {
            let Some(given) = self.bytes[..end].get(self.start..) else {
                let whole = if end < 8 { 8 } else { self.start };
                told.pieces.push(Piece { frames: 0, end: Framed::Needs((whole - end) as u64) });
                continue;
            };
            let (frames, end) = paper::frames(given, store);
            told.pieces.push(Piece { frames: frames.len(), end });
            let left = &given[frames.iter().map(|frame| frame.len()).sum()..];
            told.frames = frames.into_iter().map(|frame| (frame[1], frame.to_vec())).collect();
            told.left = left.to_vec();
            if let Framed::Refused(_) = end {
                told.left.truncate(if store < HEADER { 0 } else { HEADER });
                break;
            }
        }
        told
    }
}

impl Told {
    fn end(&self) -> Framed {
        self.pieces.last().expect("at least one piece").end
    }
}

/// Compares `inputs` streams and single calls from `seed`, by numbers of its own.
pub fn run(inputs: u64, seed: u64) -> Tally {
    let mut tally = Tally::default();
    let mut r = Rng::new(seed ^ 0x0F4A_3E50);
    for _ in 0..inputs {
        if r.one_in(3) {
            single(&mut r, &mut tally);
        } else {
            stream(&mut r, &mut tally);
        }
    }
    tally
}

/// A record of so many words, or of a header where they are too few for one.
fn record(r: &mut Rng, words: u8) -> Vec<u8> {
    let length = (words as usize * 4).max(HEADER);
    let mut record: Vec<u8> = (0..length).map(|_| r.byte()).collect();
    record[0] = words;
    record
}

/// A length in words that a record can have: the least, the most, those that records have, and any.
fn sound(r: &mut Rng) -> u8 {
    match r.below(6) {
        0 => r.pick(&[4, 5, 6]),
        1 => r.pick(&[253, 254, 255]),
        2 => r.pick(&[14, 20, 80, 90, 92, 130]),
        3 => 4 + r.below(28) as u8,
        _ => 4 + r.below(252) as u8,
    }
}

/// A start of this version that is accepted.
fn accepted(r: &mut Rng, version: u8) -> Vec<u8> {
    let sheet = gen::plain_sheet();
    loop {
        let start = gen::stream(r, &sheet, version);
        if crate::paper::block(version, &start[8..], &sheet.0).is_ok() {
            return start;
        }
    }
}

/// A stream of some records, some with a length below a header, some cut short at the end.
fn made(r: &mut Rng) -> Made {
    let version = 1 + r.below(3) as u8;
    let mut bytes = accepted(r, version);
    let start = bytes.len();
    // Now and then more bytes than the crate's buffer has at first.
    let count = if r.one_in(100) { 200 } else { r.pick(&[0, 1, 2, 3, 5, 8, 20]) };
    let mut words: Vec<u8> = (0..count).map(|_| sound(r)).collect();
    if r.one_in(6) {
        words.insert(r.below(words.len() + 1), r.below(4) as u8);
    }
    let mut borders = Vec::new();
    for &words in &words {
        borders.push(bytes.len());
        bytes.extend(record(r, words));
    }
    if r.one_in(3) {
        bytes.truncate(start + r.below(bytes.len() - start));
    }
    let cuts = cuts(r, &bytes, start, &borders);
    let store = store(r, words.iter().copied().max().unwrap_or(0) as usize * 4);
    Made { version, bytes, start, cuts, store }
}

/// Where a stream is cut: nowhere, near the borders of its records, at every byte of a short part, or anywhere. Empty pieces come, too.
fn cuts(r: &mut Rng, bytes: &[u8], start: usize, borders: &[usize]) -> Vec<usize> {
    let mut cuts: Vec<usize> = match r.below(8) {
        0 => Vec::new(),
        1 | 2 => borders.iter().map(|border| border + r.pick(&[0, 0, 1, 15, 16, 17]) - r.pick(&[0, 0, 1])).collect(),
        3 => {
            let from = start + r.below(bytes.len() - start);
            (from..from + r.below(60)).collect()
        }
        _ => (0..r.pick(&[1, 2, 3, 5, 12])).map(|_| r.below(bytes.len() + 1)).collect(),
    };
    cuts.retain(|&cut| cut <= bytes.len());
    cuts.sort();
    cuts
}

/// The length of a store: mostly enough for every frame, else about as long as the longest of the stream, or any below it.
fn store(r: &mut Rng, longest: usize) -> usize {
    match r.below(12) {
        0 => r.below(HEADER + 1),
        1 | 2 => 8 * r.below(LONGEST / 8 + 1),
        3 => (longest + r.below(3)).saturating_sub(1),
        4 => HEADER + r.below(LONGEST - HEADER),
        _ => LONGEST + r.below(9),
    }
}

/// What a panic or an odd form says.
fn quiet<T, E: ToString>(f: impl FnOnce() -> Result<T, E>) -> Result<T, String> {
    match catch_unwind(AssertUnwindSafe(f)) {
        Ok(result) => result.map_err(|text| text.to_string()),
        Err(e) => {
            let text = e.downcast_ref::<String>().cloned();
            let text = text.or_else(|| e.downcast_ref::<&str>().map(|s| s.to_string()));
            Err(format!("panic: {}", text.unwrap_or_default()))
        }
    }
}

fn stream(r: &mut Rng, tally: &mut Tally) {
    let (made, way) = (made(r), r.pick(&Way::ALL));
    let paper = made.paper(made.store);
    let judged = match quiet(|| ours::stream(r, &made)) {
        Ok(ours) if ours == paper => judge(&made, &paper, way),
        other => Err(format!("paper {}, here {}", brief(&paper), other.map_or_else(|text| text, |told| brief(&told)))),
    };
    let judged = judged.map_err(|text| {
        let records: String = made.records().iter().map(|byte| format!("{byte:02x}")).collect();
        let cuts: Vec<isize> = made.cuts.iter().map(|&cut| cut as isize - made.start as isize).collect();
        format!("{text}; version {}, records {records}, cut at {cuts:?} of them, store {}", made.version, made.store)
    });
    tally.add(&told(paper.end(), made.store, 0), paper.frames.len(), judged);
}

/// The crate beside the plain program with a store that every frame fits in; that is, beside ours where the store does not end it.
/// Where it does, the crate's decoder goes on; one with a buffer of the store's length gives the same frames and then has no space.
fn judge(made: &Made, paper: &Told, way: Way) -> Result<Beside, String> {
    let theirs = quiet(|| of_crate::stream(made, way))?;
    let long = made.paper(LONGEST);
    if theirs != long {
        return Err(format!("paper {}, crate ({way:?}) {}", brief(&long), brief(&theirs)));
    }
    if paper.end() != Framed::Refused(101) {
        return if *paper == theirs { Ok(Beside::Crate) } else { Err("a store that is long enough tells".into()) };
    }
    let before = paper.pieces.len() - 1;
    if !theirs.frames.starts_with(&paper.frames) || theirs.pieces[..before] != paper.pieces[..before] {
        return Err(format!("paper {}, not the beginning of the crate's {}", brief(paper), brief(&theirs)));
    }
    if !made.store.is_multiple_of(8) {
        return Ok(Beside::Store);
    }
    let rest = made.records().len() - paper.frames.iter().map(|frame| frame.1.len()).sum::<usize>();
    let (frames, full) = quiet(|| Ok::<_, String>(of_crate::in_buffer(made.version, made.records(), made.store)))?;
    match frames == paper.frames && full == (rest >= made.store) {
        true => Ok(Beside::Buffer),
        false => Err(format!("a buffer of {} bytes: {} frames, full {full}", made.store, frames.len())),
    }
}

/// The counts and ends of a stream, without its bytes.
fn brief(told: &Told) -> String {
    let pieces: Vec<String> = told.pieces.iter().map(|piece| format!("{} {:?}", piece.frames, piece.end)).collect();
    let frames: Vec<String> = told.frames.iter().map(|(rtype, bytes)| format!("{rtype}:{}", bytes.len())).collect();
    format!("[{}] frames [{}] left {}", pieces.join(", "), frames.join(" "), told.left.len())
}

/// What the report calls an answer. 1 and 101 have two reasons each.
fn told(framed: Framed, store: usize, held: u64) -> String {
    match framed {
        Framed::Needs(_) => "needs".into(),
        Framed::Frame(..) => "frame".into(),
        Framed::Refused(1) if held > store as u64 => "1 (store)".into(),
        Framed::Refused(1) => "1 (frame)".into(),
        Framed::Refused(101) if store < HEADER => "101 (header)".into(),
        Framed::Refused(101) => "101 (frame)".into(),
        Framed::Refused(number) => number.to_string(),
    }
}

/// A call's held count, store and piece.
type Call = (u64, Vec<u8>, Vec<u8>);

/// A record, or a length that none has, of which a part is held in a store that may be too short, and the rest of it, all or not, with
/// bytes of another after it; or a held count that nobody can have.
fn some_call(r: &mut Rng) -> Call {
    let words = if r.one_in(5) { r.below(4) as u8 } else { sound(r) };
    let (length, room) = (words as usize * 4, store(r, words as usize * 4));
    let mut store: Vec<u8> = (0..room).map(|_| r.byte()).collect();
    store.iter_mut().take(1).for_each(|first| *first = words);
    let held = match r.below(8) {
        0 => 0,
        1 => r.below(HEADER + 1) as u64,
        2 => length as u64 + r.below(3) as u64,
        3 => r.pick(&[room as u64 + 1, room as u64, u64::MAX, 1 << 63, (1 << 32) + 16]),
        _ => r.below(room.min(length) + 1) as u64,
    };
    let mut piece = record(r, words).split_off(held.min(length as u64) as usize);
    if r.one_in(3) {
        piece.truncate(r.below(piece.len() + 1));
    }
    let more = r.pick(&[0, 0, 1, 40]);
    piece.extend(record(r, 10).into_iter().take(more));
    (held, store, piece)
}

/// One call: number, `out` and store are the plain program's.
fn single(r: &mut Rng, tally: &mut Tally) {
    let (held, store, piece) = some_call(r);
    let out = [0; 5].map(|_| r.next());
    let got = quiet(|| Ok::<_, String>(calls::frame(held, &store, &piece, &out)));
    let mut wanted = calls::FrameAnswer { number: 0, out, store: store.clone() };
    let (taken, framed) = paper::frame(held, &mut wanted.store, &piece);
    wanted.out[..3].copy_from_slice(&[taken as u64, held.wrapping_add(taken as u64), 0]);
    match framed {
        Framed::Needs(n) => wanted.out[2] = n,
        Framed::Frame(length, rtype) => wanted.out[3..].copy_from_slice(&[length as u64, rtype as u64]),
        Framed::Refused(number) => wanted.number = number,
    }
    let judged = if got.as_ref() == Ok(&wanted) {
        Ok(Beside::Paper)
    } else {
        Err(format!("paper {wanted:?}, here {got:?}; held {held}, store {store:?}, piece {piece:?}"))
    };
    tally.add(&told(framed, store.len(), held), 0, judged);
}

#[cfg(test)]
mod tests;
