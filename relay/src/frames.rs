use crate::{ffi, Refusal};
use std::fmt;

/// The records after the start of a stream of version 1, 2 or 3, which arrive in pieces, cut anywhere.
///
/// A record is a frame: its first byte is its length in words of four bytes, its header of 16 bytes among them, and its second byte
/// is its rtype. [`Frames::next`] hands each frame over once, whole. The bytes of one frame, at most 1,020, are held in the type itself, so nothing is
/// allocated and no frame is too long for the store. A frame of fewer than 16 bytes is refused by
/// [`RefusalKind::FrameLength`](crate::RefusalKind::FrameLength), which ends the records, since the next one's start is unknown.
///
/// Records of version 4 are for the host: look at [`Block::version`](crate::Block::version) before anything is given to this type.
///
/// ```
/// use dbn_start::Frames;
///
/// // Two records, of 16 and of 20 bytes, that come in three pieces.
/// let stream: Vec<u8> = [&[4, 0x17], &[1; 14][..], &[5, 0xA0], &[2; 18]].concat();
/// let (mut frames, mut rtypes) = (Frames::new(), Vec::new());
/// for mut piece in [&stream[..10], &stream[10..30], &stream[30..]] {
///     while let Some(frame) = frames.next(&mut piece)? {
///         rtypes.push((frame[1], frame.len()));
///     }
/// }
/// assert_eq!(rtypes, [(0x17, 16), (0xA0, 20)]);
/// assert!(frames.held().is_empty(), "the stream does not end inside a record");
/// # Ok::<(), dbn_start::Refusal>(())
/// ```
#[derive(Clone)]
pub struct Frames {
    store: [u8; ffi::FRAME_MOST],
    /// How many bytes of the store are those of a frame that is not whole.
    held: usize,
    /// What the library told last. What is needed, where bytes are held, is `out[2]`.
    out: [u64; 5],
    refused: Option<Refusal>,
}

impl Frames {
    /// Records of which nothing has come yet.
    pub const fn new() -> Self {
        Self { store: [0; ffi::FRAME_MOST], held: 0, out: [0; 5], refused: None }
    }

    /// Takes what the next frame still needs from the front of a piece, which is shorter afterwards by what was taken.
    ///
    /// `Some` is a whole frame: call again with the same piece for the next one. `None` says that the piece is used up. After a
    /// refusal nothing is taken, and every call gives the same refusal, until [`Frames::reset`].
    #[inline]
    pub fn next<'a>(&'a mut self, piece: &mut &[u8]) -> Result<Option<&'a [u8]>, Refusal> {
        if let Some(refusal) = self.refused {
            return Err(refusal);
        }
        let (at, length, out) = (self.store.as_mut_ptr(), self.store.len(), &mut self.out);
        // SAFETY: each pointer and length are those of a slice, and no two of them overlap.
        let number = unsafe { ffi::dbn_frame(self.held as u64, at, length, piece.as_ptr(), piece.len(), out) };
        let [taken, held, needed, length, _] = self.out.map(|number| number as usize);
        *piece = piece.get(taken..).unwrap_or_else(|| broken("the count taken of a piece", taken));
        if (number, needed) != (0, 0) {
            return self.not_whole(number, held, piece.len());
        }
        self.held = 0;
        match self.store.get(..length) {
            Some(frame) if length >= ffi::FRAME_HEADER => Ok(Some(frame)),
            _ => broken("a record's length", length),
        }
    }

    /// Keeps what is held of a frame that is not whole, and the refusal where there is one. So many bytes of the piece are left.
    fn not_whole(&mut self, number: u32, held: usize, left: usize) -> Result<Option<&[u8]>, Refusal> {
        self.held = if held <= self.store.len() { held } else { broken("the count held of a record", held) };
        self.refused = Refusal::unless_accepted(number).err();
        match self.refused {
            Some(refusal) => Err(refusal),
            None if left > 0 => broken("the rest of a piece, while a record needs more,", left),
            None => Ok(None),
        }
    }

    /// How many bytes end the present stage, and no fewer do: of the header, 16 where nothing is held, then of the frame. 0 after a refusal.
    pub fn needed(&self) -> usize {
        match (self.refused, self.held) {
            (Some(_), _) => 0,
            (None, 0) => ffi::FRAME_HEADER,
            (None, _) => self.out[2] as usize,
        }
    }

    /// The bytes of the frame that is not whole yet, or of the one that was refused. A stream that ends while there are any ends inside a
    /// record.
    pub fn held(&self) -> &[u8] {
        &self.store[..self.held]
    }

    /// Begins anew, for another stream.
    pub fn reset(&mut self) {
        (self.held, self.refused) = (0, None);
    }
}

impl Default for Frames {
    fn default() -> Self {
        Self::new()
    }
}

impl fmt::Debug for Frames {
    fn fmt(&self, f: &mut fmt::Formatter<'_>) -> fmt::Result {
        let mut shown = f.debug_struct("Frames");
        shown
            .field("held", &self.held)
            .field("needed", &self.needed())
            .field("refused", &self.refused)
            .finish_non_exhaustive()
    }
}

/// Tells loudly that a number of the library's goes past what was lent.
#[cold]
#[inline(never)]
fn broken(what: &str, number: usize) -> ! {
    panic!("the library dbn_c broke its promise: {what} is {number}")
}

#[cfg(test)]
mod tests {
    use super::*;

    #[test]
    #[should_panic(expected = "broke its promise: the count held of a record is 1021")]
    fn a_held_count_past_the_store_is_told_loudly() {
        let _ = Frames::new().not_whole(0, 1_021, 0);
    }

    #[test]
    #[should_panic(expected = "broke its promise: the rest of a piece, while a record needs more, is 3")]
    fn a_piece_that_is_not_used_up_is_told_loudly() {
        let _ = Frames::new().not_whole(0, 20, 3);
    }

    #[test]
    #[should_panic(expected = "it answered 46, which is no number of the table")]
    fn a_number_of_no_table_is_told_loudly() {
        let _ = Frames::new().not_whole(46, 16, 0);
    }

    #[test]
    fn a_refusal_keeps_what_is_held() {
        let mut frames = Frames::new();
        let refusal = frames.not_whole(100, 16, 7).expect_err("a refusal");
        assert_eq!((refusal.number(), frames.held().len(), frames.needed()), (100, 16, 0));
    }
}
