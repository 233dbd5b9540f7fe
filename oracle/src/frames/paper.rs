//! Document 02, request 2, as a plain program: the frames of records of versions 1 to 3.
//!
//! It reads twice. [`frames`] takes the bytes after a block as a whole and knows no pieces, so that a stream cut anywhere is held to
//! what it is uncut. [`frame`] is one call, with any held count and any store.

/// The length of a record's header.
pub const HEADER: usize = 16;

/// The longest frame.
pub const LONGEST: usize = 255 * 4;

/// What held bytes of a record come to.
#[derive(Debug, Clone, Copy, PartialEq, Eq)]
pub enum Framed {
    /// The count still needed: to 16 below 16 held, then to the frame.
    Needs(u64),
    /// A complete frame: its length and its rtype byte.
    Frame(usize, u8),
    Refused(u32),
}

/// The complete frames of the bytes after a block, in a store of so many bytes, and what the bytes after them come to: a count
/// needed, or a refusal, which ends it.
pub fn frames(mut records: &[u8], store: usize) -> (Vec<&[u8]>, Framed) {
    let mut frames = Vec::new();
    while store >= HEADER && records.len() >= HEADER {
        let length = records[0] as usize * 4;
        if length < HEADER {
            return (frames, Framed::Refused(100));
        }
        if store < length {
            return (frames, Framed::Refused(101));
        }
        let Some((frame, rest)) = records.split_at_checked(length) else {
            return (frames, Framed::Needs((length - records.len()) as u64));
        };
        frames.push(frame);
        records = rest;
    }
    let end = if store < HEADER { Framed::Refused(101) } else { Framed::Needs((HEADER - records.len()) as u64) };
    (frames, end)
}

/// The verdict on held bytes: 1 beyond the store; 101 below 16, judged at once; with 16 held 100, 101 below the frame, 1 beyond the
/// frame.
pub fn framed(held: u64, store: &[u8]) -> Framed {
    let length = 4 * store.first().map_or(0, |&words| words as u64);
    let (room, whole) = (store.len() as u64, held >= HEADER as u64);
    let refusals = [
        (held > room, 1),
        (room < HEADER as u64, 101),
        (whole && length < HEADER as u64, 100),
        (whole && room < length, 101),
        (whole && held > length, 1),
    ];
    if let Some((_, number)) = refusals.iter().find(|(broken, _)| *broken) {
        return Framed::Refused(*number);
    }
    match (whole, length.wrapping_sub(held)) {
        (false, _) => Framed::Needs(HEADER as u64 - held),
        (true, 0) => Framed::Frame(held as usize, store[1]),
        (true, needed) => Framed::Needs(needed),
    }
}

/// A call: how many bytes it takes, and what the held bytes then come to. The store gets the bytes taken.
pub fn frame(held: u64, store: &mut [u8], piece: &[u8]) -> (usize, Framed) {
    let mut taken = 0;
    loop {
        match framed(held + taken as u64, store) {
            Framed::Needs(n) if taken < piece.len() => {
                let (next, at) = ((piece.len() - taken).min(n as usize), held as usize + taken);
                store[at..at + next].copy_from_slice(&piece[taken..taken + next]);
                taken += next;
            }
            end => return (taken, end),
        }
    }
}

#[cfg(test)]
mod tests {
    //! Counts counted by hand.
    use super::*;

    /// A record of so many words, all its other bytes this one.
    fn record(words: u8, byte: u8) -> Vec<u8> {
        let mut record = vec![byte; 4 * words as usize];
        record[0] = words;
        record
    }

    #[test]
    fn a_whole_stream_is_its_frames_and_an_end() {
        let [one, two] = [record(4, 7), record(5, 8)];
        let stream = [&one[..], &two].concat();
        assert_eq!(frames(&stream, 1020), (vec![&one[..], &two], Framed::Needs(16)));
        assert_eq!(frames(&stream, 20), (vec![&one[..], &two], Framed::Needs(16)), "a store as long as the longest");
        assert_eq!(frames(&stream, 19), (vec![&one[..]], Framed::Refused(101)));
        assert_eq!(frames(&stream, 15), (vec![], Framed::Refused(101)));
        assert_eq!(frames(&[], 15), (vec![], Framed::Refused(101)), "judged at once");
        assert_eq!(frames(&[], 16), (vec![], Framed::Needs(16)));
        for (length, needed) in [(15, 1), (16, 16), (17, 15), (31, 1), (32, 4), (35, 1)] {
            assert_eq!(frames(&stream[..length], 1020).1, Framed::Needs(needed), "{length} bytes");
        }
        let bad = [&one[..], &[3; 15]].concat();
        assert_eq!(frames(&bad, 1020), (vec![&one[..]], Framed::Needs(1)), "15 bytes of a header");
        let bad = [&bad[..], &[3], &two].concat();
        assert_eq!(frames(&bad, 1020), (vec![&one[..]], Framed::Refused(100)), "and nothing after it");
        let long = record(255, 1);
        assert_eq!(frames(&long, 1019), (vec![], Framed::Refused(101)));
        assert_eq!(frames(&long, 1020), (vec![&long[..]], Framed::Needs(16)));
    }

    #[test]
    fn the_verdicts_come_in_document_02_s_order() {
        let verdict = |held, room: usize, words| {
            let mut store = vec![9; room];
            store.iter_mut().take(1).for_each(|first| *first = words);
            framed(held, &store)
        };
        assert_eq!([verdict(16, 15, 0), verdict(1, 0, 0)], [Framed::Refused(1); 2], "1 before 101");
        assert_eq!([verdict(15, 15, 0), verdict(0, 15, 9), verdict(0, 0, 0)], [Framed::Refused(101); 3]);
        assert_eq!([verdict(0, 16, 0), verdict(15, 16, 0)], [16, 1].map(Framed::Needs), "100 comes with 16 held");
        assert_eq!([verdict(16, 16, 0), verdict(16, 16, 3), verdict(17, 17, 3)], [Framed::Refused(100); 3]);
        assert_eq!([verdict(16, 16, 5), verdict(19, 19, 5), verdict(16, 1019, 255)], [Framed::Refused(101); 3]);
        assert_eq!([verdict(17, 17, 4), verdict(1020, 1020, 254)], [Framed::Refused(1); 2], "beyond the frame");
        assert_eq!(verdict(u64::MAX, 1020, 255), Framed::Refused(1));
        assert_eq!([verdict(16, 20, 5), verdict(19, 20, 5)], [4, 1].map(Framed::Needs));
        assert_eq!([verdict(16, 16, 4), verdict(20, 99, 5)], [Framed::Frame(16, 9), Framed::Frame(20, 9)]);
    }

    #[test]
    fn a_call_takes_what_the_frame_needs() {
        let stream = [record(5, 8), record(4, 7)].concat();
        let mut store = vec![1; 24];
        assert_eq!(frame(0, &mut store, &stream), (20, Framed::Frame(20, 8)), "header and rest at once");
        assert_eq!((&store[..20], &store[20..]), (&stream[..20], &[1; 4][..]));
        assert_eq!(frame(20, &mut store, &stream[20..]), (0, Framed::Frame(20, 8)), "a whole frame takes nothing");
        assert_eq!(frame(2, &mut store, &stream[2..15]), (13, Framed::Needs(1)));
        assert_eq!(frame(15, &mut store, &stream[15..17]), (2, Framed::Needs(3)));
        assert_eq!(frame(17, &mut store, &[]), (0, Framed::Needs(3)));
        assert_eq!(frame(0, &mut store, &[3; 40]), (16, Framed::Refused(100)), "no byte after the header");
        assert_eq!(frame(16, &mut store, &[3; 40]), (0, Framed::Refused(100)), "nothing after a refusal");
        assert_eq!(frame(0, &mut store[..16], &stream), (16, Framed::Refused(101)));
        assert_eq!(frame(0, &mut store[..15], &stream), (0, Framed::Refused(101)));
    }
}
