//! The records after a start, cut anywhere: what comes is what the whole stream has, in order, and a refused record ends it.
#[path = "../fuzz/calls.rs"]
mod calls;
mod common;
#[allow(dead_code)]
#[path = "../fuzz/gen.rs"]
mod gen;

use calls::FrameAnswer;
use common::capture;
use dbn_start::{ffi, Feed, Frames, Limits, Refusal, RefusalKind, Step};
use gen::Rng;

/// A record of so many words, whose other bytes are random.
fn record(r: &mut Rng, words: u8) -> Vec<u8> {
    let mut bytes = vec![words];
    bytes.extend((1..4 * words as usize).map(|_| r.byte()));
    bytes
}

/// Gives a piece to the end, and hands over each record and how many bytes were taken.
fn all(frames: &mut Frames, mut piece: &[u8], mut each: impl FnMut(&[u8])) -> Result<usize, Refusal> {
    let length = piece.len();
    while let Some(frame) = frames.next(&mut piece)? {
        each(frame);
    }
    Ok(length - piece.len())
}

/// The records of a stream, given in pieces that end at these places and at the stream's end. Every piece is taken whole.
fn cut(bytes: &[u8], cuts: &[usize]) -> Vec<Vec<u8>> {
    let (mut frames, mut came, mut at) = (Frames::new(), Vec::new(), 0);
    for &cut in cuts.iter().chain([&bytes.len()]) {
        let taken = all(&mut frames, &bytes[at..cut], |frame| came.push(frame.to_vec()));
        assert_eq!(taken, Ok(cut - at), "the bytes from {at} to {cut}");
        at = cut;
    }
    assert_eq!((frames.held(), frames.needed()), (&b""[..], 16), "the stream ends after a record");
    came
}

#[test]
fn ten_thousand_records_of_any_length_cut_anywhere() {
    let mut r = Rng::new(2);
    let words: Vec<u8> = (0..10_000).map(|_| 4 + r.below(252) as u8).collect();
    assert!((4..=255).all(|length| words.contains(&length)), "every length");
    let records: Vec<Vec<u8>> = words.iter().map(|&words| record(&mut r, words)).collect();
    let bytes = records.concat();
    for most in [1, 2, 5, 17, 50, 300, 1_021, 5_000, 65_536, usize::MAX] {
        for _ in 0..3 {
            let (mut frames, mut rest, mut next) = (Frames::new(), &bytes[..], records.iter());
            while !rest.is_empty() {
                let (piece, later) = rest.split_at((1 + r.below(most)).min(rest.len()));
                let taken = all(&mut frames, piece, |frame| assert_eq!(next.next().map(Vec::as_slice), Some(frame)));
                assert_eq!(taken, Ok(piece.len()));
                rest = later;
            }
            assert_eq!((next.next(), frames.held()), (None, &b""[..]), "each record once");
        }
    }
}

#[test]
fn three_records_cut_at_every_pair_of_places() {
    let mut r = Rng::new(3);
    let records = [4, 14, 5].map(|words| record(&mut r, words));
    let bytes = records.concat();
    for first in 0..=bytes.len() {
        for second in first..=bytes.len() {
            assert_eq!(cut(&bytes, &[first, second]), records, "cut at {first} and {second}");
        }
    }
}

#[test]
fn the_count_needed_is_told_byte_by_byte() {
    let mut r = Rng::new(4);
    let records = [4, 255, 5].map(|words| record(&mut r, words));
    let mut frames = Frames::new();
    for bytes in records {
        for at in 0..bytes.len() {
            let needed = if at < 16 { 16 - at } else { bytes.len() - at };
            assert_eq!((frames.needed(), frames.held()), (needed, &bytes[..at]));
            assert_eq!(frames.next(&mut &b""[..]), Ok(None), "nothing new");
            assert_eq!((frames.needed(), frames.held()), (needed, &bytes[..at]));
            let mut piece = &bytes[at..at + 1];
            let whole = at + 1 == bytes.len();
            assert_eq!(frames.next(&mut piece), Ok(whole.then_some(&bytes[..])));
            assert!(piece.is_empty());
        }
    }
    assert_eq!((frames.needed(), frames.held()), (16, &b""[..]));
}

/// Document 02's rules on held bytes: the count needed, 0 for a whole record, or the refusal.
fn judged(held: usize, store: &[u8]) -> Result<usize, u32> {
    if held > store.len() {
        return Err(1);
    }
    if store.len() < 16 {
        return Err(101);
    }
    if held < 16 {
        return Ok(16 - held);
    }
    let whole = 4 * store[0] as usize;
    if whole < 16 {
        return Err(100);
    }
    if store.len() < whole {
        return Err(101);
    }
    if held > whole {
        return Err(1);
    }
    Ok(whole - held)
}

/// What a call must leave: bytes are taken one by one, as long as some are needed and there are any.
fn wanted(held: usize, store: &[u8], piece: &[u8], out: &[u64; 5]) -> FrameAnswer {
    let (mut store, mut taken) = (store.to_vec(), 0);
    while taken < piece.len() && judged(held + taken, &store).is_ok_and(|needed| needed > 0) {
        store[held + taken] = piece[taken];
        taken += 1;
    }
    let now = held + taken;
    let (number, needed) = judged(now, &store).map_or_else(|number| (number, 0), |needed| (0, needed));
    let mut out = [taken as u64, now as u64, needed as u64, out[3], out[4]];
    if (number, needed) == (0, 0) {
        out[3..].copy_from_slice(&[now as u64, store[1] as u64]);
    }
    FrameAnswer { number, out, store }
}

#[test]
fn every_small_state_is_answered_in_the_order_of_the_rules() {
    let out = [91, 92, 93, 94, 95];
    let mut ends = std::collections::BTreeMap::new();
    for (held, room) in (0..=40).flat_map(|held| (0..=40).map(move |room| (held, room))) {
        for (first, length) in (0..=12).flat_map(|first| (0..=30).map(move |length| (first, length))) {
            let mut store: Vec<u8> = (0..room).map(|i| 0x80 + i as u8).collect();
            let mut piece: Vec<u8> = (0..length).map(|i| 0xC0 + i as u8).collect();
            // The record's first byte, held or not.
            if let Some(byte) = if held > 0 { store.first_mut() } else { piece.first_mut() } {
                *byte = first;
            }
            let a = calls::frame(held as u64, &store, &piece, &out);
            assert_eq!(a, wanted(held, &store, &piece, &out), "{held} held of {room}, {first}, a piece of {length}");
            *ends.entry((a.number, a.out[2] == 0, a.out[0] == 0)).or_insert(0) += 1;
        }
    }
    let kinds = [(0, false, false), (0, false, true), (0, true, false), (0, true, true), (1, true, true)];
    let refused = [(100, true, false), (100, true, true), (101, true, false), (101, true, true)];
    assert_eq!(ends.into_keys().collect::<Vec<_>>(), [&kinds[..], &refused].concat(), "every kind of answer");
}

#[test]
fn large_held_counts_and_the_longest_record() {
    let out = [91, 92, 93, 94, 95];
    let mut r = Rng::new(5);
    let longest = record(&mut r, 255);
    for held in [41, 1_020, 1_021, 1 << 32, u64::MAX - 15, u64::MAX] {
        let a = calls::frame(held, &longest[..40], &longest, &out);
        assert_eq!((a.number, a.out, &a.store[..]), (1, [0, held, 0, 94, 95], &longest[..40]), "{held} held");
    }
    for room in [1_019, 1_020, 1_021] {
        for held in [0, 1, 16, 17, 1_018, 1_019, 1_020, 1_021] {
            let mut store = vec![0xEE; room];
            let begun = held.min(room).min(longest.len());
            store[..begun].copy_from_slice(&longest[..begun]);
            let piece = &longest[begun..];
            let a = calls::frame(held as u64, &store, piece, &out);
            assert_eq!(a, wanted(held, &store, piece, &out), "{held} held of {room}");
        }
    }
}

#[test]
fn a_start_and_its_records_from_one_stream_cut_anywhere() {
    let (start, _) = capture();
    let mut r = Rng::new(6);
    let records = [14, 4, 14].map(|words| record(&mut r, words));
    let bytes = [&start[..], &records.concat()].concat();
    let read = |cuts: &[usize]| {
        let (mut feed, mut frames, mut came, mut at) = (Feed::new(Limits::default()), Frames::new(), Vec::new(), 0);
        for &cut in cuts.iter().chain([&bytes.len()]) {
            let taken = feed.feed(&bytes[at..cut]).expect("an accepted start").taken;
            let rest = &bytes[at + taken..cut];
            assert_eq!(all(&mut frames, rest, |frame| came.push(frame.to_vec())), Ok(rest.len()));
            at = cut;
        }
        assert_eq!((feed.step(), feed.held()), (Ok(Step::Done), &start[..]), "cut at {cuts:?}");
        assert_eq!((&came[..], frames.held()), (&records[..], &b""[..]), "cut at {cuts:?}");
    };
    for first in 0..=bytes.len() {
        read(&[first]);
        for second in first.max(start.len() - 5)..=bytes.len() {
            read(&[first, second]);
        }
    }
    read(&(0..bytes.len()).collect::<Vec<_>>());
}

#[test]
fn a_refused_record_ends_it() {
    let mut r = Rng::new(7);
    for (first, cuts) in (0..4).flat_map(|first| (0..=56).map(move |cut| (first, cut))) {
        let mut bytes = [record(&mut r, 4), record(&mut r, 6), record(&mut r, 4), record(&mut r, 4)].concat();
        bytes[40] = first;
        let (mut frames, mut came) = (Frames::new(), 0);
        assert_eq!(all(&mut frames, &bytes[..cuts.min(55)], |_| came += 1), Ok(cuts.min(55)));
        let mut piece = &bytes[cuts.min(55)..];
        let refusal = loop {
            match frames.next(&mut piece) {
                Ok(frame) => came += frame.map(|_| 1).expect("the piece is not used up"),
                Err(refusal) => break refusal,
            }
        };
        assert_eq!((refusal.kind(), refusal.place(), came), (RefusalKind::FrameLength, None, 2));
        assert_eq!((piece, frames.held(), frames.needed()), (&bytes[56..], &bytes[40..56], 0), "its header is taken");
        for more in [&b""[..], &bytes, &bytes[56..]] {
            let mut piece = more;
            assert_eq!((frames.next(&mut piece), piece), (Err(refusal), more), "nothing is taken any more");
        }
        assert_eq!((frames.held(), frames.needed()), (&bytes[40..56], 0));
        assert_eq!(frames.clone().next(&mut &bytes[..]), Err(refusal));
        frames.reset();
        assert_eq!((frames.held(), frames.needed()), (&b""[..], 16));
        assert_eq!(frames.next(&mut piece), Ok(Some(&bytes[56..])), "a new stream");
    }
}

#[test]
fn records_begin_anew_inside_a_record() {
    let mut r = Rng::new(8);
    let (one, other) = (record(&mut r, 30), record(&mut r, 9));
    for came in 0..one.len() {
        let mut frames = Frames::default();
        assert_eq!(all(&mut frames, &one[..came], |_| unreachable!("no record yet")), Ok(came));
        assert_eq!(frames.held(), &one[..came], "what is left over where the stream ends here");
        frames.reset();
        assert_eq!(frames.next(&mut &other[..]), Ok(Some(&other[..])));
    }
}

#[test]
fn a_store_that_is_too_short_is_lent_a_longer_one() {
    let mut r = Rng::new(9);
    let bytes = record(&mut r, 20);
    let out = [0; 5];
    let short = calls::frame(0, &[0; 79], &bytes, &out);
    assert_eq!((short.number, short.out), (101, [16, 16, 0, 0, 0]));
    let mut store = short.store;
    store.push(0);
    let whole = calls::frame(16, &store, &bytes[16..], &out);
    assert_eq!((whole.number, whole.out, whole.store), (0, [64, 80, 0, 80, bytes[1] as u64], bytes));
}

#[test]
fn what_is_shown_of_records() {
    let mut frames = Frames::new();
    assert_eq!(frames.next(&mut &[14; 20][..]), Ok(None));
    assert_eq!(format!("{frames:?}"), "Frames { held: 20, needed: 36, refused: None, .. }");
    assert_eq!(size_of::<Frames>().next_multiple_of(1 << 11), 1 << 11, "the store and little more");
    assert_eq!(ffi::FRAME_MOST, 4 * u8::MAX as usize);
}
