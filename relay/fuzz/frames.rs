//! Records: any cutting gives those of the whole stream, one after the other, and any state and any store get an answer.
use super::{
    calls::{self, FrameAnswer},
    checks::{marked, marked_out, tell},
    gen::Rng,
    Count,
};

/// The records that came of a stream, one after the other, the number at its end, and what is then held.
#[derive(Debug, PartialEq)]
struct Came {
    lengths: Vec<usize>,
    bytes: Vec<u8>,
    number: u32,
    held: Vec<u8>,
}

/// A stream of records: whole, in pieces, and from any state.
pub fn records(r: &mut Rng, count: &mut Count) {
    let bytes = stream(r);
    let room = if r.one_in(3) { r.below(1_021) } else { 1_020 + r.below(9) };
    let store = marked(r, room, |x| x as u8);
    let whole = came(r, &bytes, &store, usize::MAX, count);
    let most = r.pick(&[1, 3, 16, 20, 100, 600]);
    assert_eq!(came(r, &bytes, &store, most, count), whole, "a cut stream of records");
    let taken = [&whole.bytes[..], &whole.held].concat();
    assert_eq!(taken, bytes[..taken.len()], "records, and what is held, stand one after the other");
    assert!(whole.number != 0 || taken == bytes, "a stream that is not refused is taken whole");
    any_state(r, &bytes, &store, count);
}

/// Records of any lengths. Some are too short to be one, and the end may be missing.
fn stream(r: &mut Rng) -> Vec<u8> {
    let mut bytes = Vec::new();
    for _ in 0..r.below(9) {
        let words = match r.below(16) {
            0 => r.below(4),
            1..=8 => 4 + r.below(20),
            _ => 4 + r.below(252),
        };
        let length = if words < 4 { r.below(40) } else { 4 * words - 1 };
        bytes.push(words as u8);
        bytes.extend(marked(r, length, |x| x as u8));
    }
    if r.one_in(2) {
        bytes.truncate(r.below(bytes.len() + 1));
    }
    bytes
}

/// Feeds a stream in pieces of at most so many bytes, up to its end or a refusal.
fn came(r: &mut Rng, bytes: &[u8], store: &[u8], most: usize, count: &mut Count) -> Came {
    let mut came = Came { lengths: Vec::new(), bytes: Vec::new(), number: 0, held: Vec::new() };
    let (mut store, mut held, mut rest) = (store.to_vec(), 0, bytes);
    while came.number == 0 && !rest.is_empty() {
        let length = if most < rest.len() { 1 + r.below(most) } else { rest.len() };
        let (mut piece, later) = rest.split_at(length.min(rest.len()));
        loop {
            let a = one(r, held, &store, piece, count);
            piece = &piece[a.out[0] as usize..];
            (store, held) = (a.store, a.out[1] as usize);
            came.number = a.number;
            if (a.number, a.out[2]) != (0, 0) {
                break;
            }
            came.lengths.push(held);
            came.bytes.extend(&store[..held]);
            held = 0;
        }
        rest = later;
    }
    came.held = store[..held].to_vec();
    came
}

/// One call, what holds of every one, and that the count needed is the least.
fn one(r: &mut Rng, held: usize, store: &[u8], piece: &[u8], count: &mut Count) -> FrameAnswer {
    let out = marked_out(r);
    let a = calls::frame(held as u64, store, piece, &out);
    tell(count, a.number, a.out[2]);
    fed(&a, held, store, piece, &out);
    let (now, needed) = (a.out[1], a.out[2] as usize);
    if needed > 0 && r.one_in(4) {
        let piece = marked(r, needed, |x| x as u8);
        let less = calls::frame(now, &a.store, &piece[..needed - 1], &out);
        assert_eq!((less.number, less.out[2]), (0, 1), "one byte less ended the stage");
        let full = calls::frame(now, &a.store, &piece, &out);
        assert_eq!(full.out[0] as usize, needed, "the bytes needed are taken");
        assert!(full.number != 0 || now < 16 || full.out[2] == 0, "the bytes needed did not end the record");
    }
    if needed == 0 {
        let again = calls::frame(now, &a.store, piece, &a.out);
        let mut wanted = a.clone();
        wanted.out[0] = 0;
        assert_eq!(again, wanted, "a whole record, or a refused one, takes nothing and stays so");
    }
    a
}

/// What holds of every single call that is lent a store beyond what is held.
fn fed(a: &FrameAnswer, held: usize, store: &[u8], piece: &[u8], out: &[u64; 5]) {
    let [taken, now, needed] = [0, 1, 2].map(|i| a.out[i] as usize);
    assert!(taken <= piece.len(), "more taken than given");
    assert_eq!(now, held + taken, "held count");
    assert_eq!(a.store[..held], store[..held], "bytes held before");
    assert_eq!(a.store[held..now], piece[..taken], "bytes taken");
    assert_eq!(a.store[now..], store[now..], "store past the held bytes");
    if (a.number, needed) == (0, 0) {
        let told = [now as u64, 4 * a.store[0] as u64, a.out[3]];
        assert!(now >= 16 && told[0] == told[1] && told[1] == told[2], "a record's length: {told:?}");
        assert_eq!(a.out[4], a.store[1] as u64, "a record's rtype");
        return;
    }
    assert_eq!(a.out[3..], out[3..], "out of what is no record");
    assert!(a.number == 0 || needed == 0, "a refusal needs nothing");
    assert!(a.number != 0 || taken == piece.len(), "what is still needed is taken where it is there");
    match a.number {
        0 if now < 16 => assert_eq!(now + needed, 16, "to the header's end"),
        0 => assert_eq!(now + needed, 4 * a.store[0] as usize, "to the record's end"),
        100 => assert!(now == held.max(16) && a.store[0] < 4, "100 for {now} bytes"),
        101 => assert!(store.len() < 16 || now >= 16 && store.len() < 4 * a.store[0] as usize, "101 for {now} bytes"),
        number => {
            let whole = 4 * a.store[0] as usize;
            assert!(number == 1 && taken == 0 && whole >= 16 && now > whole, "{number} for {now} bytes");
        }
    }
}

/// Any held count and any store that begins with any bytes.
fn any_state(r: &mut Rng, bytes: &[u8], store: &[u8], count: &mut Count) {
    let mut store = store.to_vec();
    store.truncate(r.pick(&[store.len(), 15, 16, 17, 100]));
    let (begun, piece) = bytes.split_at(r.below(bytes.len() + 1));
    let begun = &begun[..begun.len().min(store.len())];
    store[..begun.len()].copy_from_slice(begun);
    let held = match r.below(3) {
        0 => r.next() >> r.below(64),
        1 => r.below(store.len() + 3) as u64,
        _ => begun.len() as u64,
    };
    if held <= store.len() as u64 {
        one(r, held as usize, &store, piece, count);
        return;
    }
    let out = marked_out(r);
    let a = calls::frame(held, &store, piece, &out);
    tell(count, a.number, a.out[2]);
    assert_eq!((a.number, a.out, a.store), (1, [0, held, 0, out[3], out[4]], store), "held beyond the store");
}
