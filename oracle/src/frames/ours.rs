//! What `dbn_feed` and `dbn_frame` answer to a stream in pieces, held to their own form: what is taken, what the store and `out` keep.
use super::{
    paper::{Framed, HEADER},
    Made, Piece, Told,
};
use crate::{
    calls,
    gen::Rng,
    ours::{marks, table},
    walk::ROW,
};

/// A call by a caller whose held count is not beyond the store. Gives the count taken and what it came to; the store gets the bytes.
fn step(r: &mut Rng, held: u64, store: &mut Vec<u8>, piece: &[u8]) -> Result<(usize, Framed), &'static str> {
    let out = marks(r);
    let a = calls::frame(held, store, piece, &out);
    let need = |true_: bool, text| if true_ { Ok(()) } else { Err(text) };
    need(a.out[0] <= piece.len() as u64 && a.out[1] == held + a.out[0], "taken or held count")?;
    let (taken, from, now) = (a.out[0] as usize, held as usize, a.out[1] as usize);
    need(now <= store.len(), "more held than the store has")?;
    need(a.store[..from] == store[..from] && a.store[now..] == store[now..], "the store outside what was taken")?;
    need(a.store[from..now] == piece[..taken], "the bytes taken")?;
    *store = a.store;
    let framed = match (a.number, a.out[2]) {
        (0, 0) => {
            need(a.out[3] == a.out[1], "the length of a frame is what is held")?;
            need(now >= HEADER, "a frame below its header")?;
            return Ok((taken, Framed::Frame(now, u8::try_from(a.out[4]).map_err(|_| "an rtype")?)));
        }
        (0, needed) => {
            need(taken == piece.len(), "a call that needs more takes all")?;
            Framed::Needs(needed)
        }
        (number, needed) => {
            need(needed == 0, "a refusal needs nothing")?;
            Framed::Refused(number)
        }
    };
    need(a.out[3..] == out[3..], "out without a frame")?;
    Ok((taken, framed))
}

/// The start of a stream in pieces, up to its block's end.
struct Start {
    store: Vec<u8>,
    held: u64,
    tables: [Vec<u32>; 2],
}

impl Start {
    fn new(r: &mut Rng, made: &Made) -> Self {
        let store = vec![0; made.start];
        let bare = calls::feed(0, &store, &made.bytes, &[0; 520], &[], &[], &[0; 20]);
        let rows = if bare.number == 3 { bare.out[10] as usize } else { 0 };
        Self { store, held: 0, tables: [table(r, rows * ROW), Vec::new()] }
    }

    /// The count taken of a piece, and the count needed, 0 where the block is whole.
    fn feed(&mut self, piece: &[u8]) -> Result<(usize, u64), &'static str> {
        let [symbology, layout] = &self.tables;
        let fed = calls::feed(self.held, &self.store, piece, &[0; 520], symbology, layout, &[0; 20]);
        (self.store, self.held) = (fed.store, fed.out[17]);
        if fed.number != 0 {
            return Err("a sound start is refused");
        }
        Ok((fed.out[16] as usize, fed.out[18]))
    }
}

/// What a stream comes to that is cut at its places: its start, and then its frames in a store of its length.
pub fn stream(r: &mut Rng, made: &Made) -> Result<Told, &'static str> {
    let mut store: Vec<u8> = (0..made.store).map(|_| r.byte()).collect();
    let (mut start, mut started, mut held) = (Start::new(r, made), false, 0);
    let mut told = Told::default();
    for piece in made.pieces() {
        let mut rest = piece;
        let end = loop {
            if !started {
                let (taken, needed) = start.feed(rest)?;
                rest = &rest[taken..];
                started = needed == 0;
                if !started {
                    break Framed::Needs(needed);
                }
            }
            let (taken, framed) = step(r, held, &mut store, rest)?;
            (rest, held) = (&rest[taken..], held + taken as u64);
            let Framed::Frame(length, rtype) = framed else { break framed };
            again(r, held, &mut store, rest, framed)?;
            told.frames.push((rtype, store[..length].to_vec()));
            held = 0;
        };
        told.pieces.push(Piece { frames: told.frames.len(), end });
        if let Framed::Refused(_) = end {
            again(r, held, &mut store, rest, end)?;
            break;
        }
    }
    told.left = store[..held as usize].to_vec();
    Ok(told)
}

/// Now and then asks once more after a frame or a refusal: nothing is taken, and the answer is the same.
fn again(r: &mut Rng, held: u64, store: &mut Vec<u8>, rest: &[u8], framed: Framed) -> Result<(), &'static str> {
    if r.one_in(3) && step(r, held, store, rest)? != (0, framed) {
        return Err("another answer to the same held bytes");
    }
    Ok(())
}
