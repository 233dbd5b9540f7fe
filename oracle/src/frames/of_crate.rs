//! What the crate's own decoder (`decode/dbn/fsm.rs`, unchanged) makes of a stream with records, decoded as stored.
//!
//! Its record is a reference to the rest of its buffer, so where a record ends is told by what the decoder says is not processed yet.
//! What it asks the header for, the frame's length and whether that is too short, is not in the text at hand (`shims/record.rs`).
use super::{
    paper::{Framed, HEADER},
    Made, Piece, Told,
};
use dbn::{
    decode::dbn::fsm::{DbnFsm, DbnFsmBuilder, ProcessResult},
    v3::RecordHeader,
    VersionUpgradePolicy,
};

/// How records are asked for.
#[derive(Debug, Clone, Copy)]
pub enum Way {
    /// `process`, one at a time.
    One,
    /// `process_all`, as many as there are.
    All,
    /// `process_batch`, up to sixteen.
    Batch,
}

impl Way {
    pub const ALL: [Way; 3] = [Way::One, Way::All, Way::Batch];
}

/// An rtype byte and the bytes of a frame.
type Frame = (u8, Vec<u8>);

fn builder() -> DbnFsmBuilder {
    DbnFsm::builder().upgrade_policy(VersionUpgradePolicy::AsIs)
}

/// What the decoder answers once, and the records with it, each with all that follows it in the buffer.
fn process(fsm: &mut DbnFsm, way: Way) -> (ProcessResult<u64>, Vec<Vec<u8>>) {
    let mut tails = Vec::new();
    let result = match way {
        Way::One => {
            let result = fsm.process();
            tails.extend(fsm.last_record().map(|record| record.as_ref().to_vec()));
            counted(result, |()| 1)
        }
        Way::All => {
            let mut records = Vec::new();
            let result = fsm.process_all(&mut records, None);
            tails.extend(records.iter().map(|record| record.as_ref().to_vec()));
            result
        }
        Way::Batch => {
            let result = fsm.process_batch();
            while let Some(record) = fsm.next_buffered_record() {
                tails.push(record.as_ref().to_vec());
            }
            counted(result, |count| count as u64)
        }
    };
    (result, tails)
}

fn counted<R>(result: ProcessResult<R>, count: impl FnOnce(R) -> u64) -> ProcessResult<u64> {
    match result {
        ProcessResult::Record(records) => ProcessResult::Record(count(records)),
        ProcessResult::ReadMore(n) => ProcessResult::ReadMore(n),
        ProcessResult::Metadata(metadata) => ProcessResult::Metadata(metadata),
        ProcessResult::Err(error) => ProcessResult::Err(error),
    }
}

/// The frames of records that each have all that follows them, where the last is followed by so many bytes.
fn parted(mut tails: Vec<Vec<u8>>, rest: usize) -> Vec<Frame> {
    let mut after = rest;
    for tail in tails.iter_mut().rev() {
        let whole = tail.len();
        tail.truncate(whole - after);
        after = whole;
    }
    tails.into_iter().map(|frame| (rtype(&frame), frame)).collect()
}

/// The rtype that the header has. A record of four bytes more than a multiple of eight leaves the next where no reference may be to a
/// header, so it is read from a copy.
fn rtype(frame: &[u8]) -> u8 {
    assert!(frame.len() >= HEADER, "a record below its header");
    // SAFETY: the bytes of a header, of which every value is one.
    unsafe { frame.as_ptr().cast::<RecordHeader>().read_unaligned() }.rtype
}

/// What a stream comes to that is cut at its places. The decoder has no store.
pub fn stream(made: &Made, way: Way) -> Result<Told, String> {
    let mut fsm = builder().build().expect("a state machine");
    let mut told = Told::default();
    let mut written = 0;
    for piece in made.pieces() {
        fsm.write_all(piece);
        written += piece.len();
        let end = loop {
            match process(&mut fsm, way) {
                (ProcessResult::Metadata(_), _) => {}
                (ProcessResult::Record(count), tails) if count == tails.len() as u64 && count > 0 => {
                    told.frames.extend(parted(tails, fsm.data().len()));
                }
                (ProcessResult::Record(count), tails) => return Err(format!("{count} records, {} given", tails.len())),
                (ProcessResult::ReadMore(n), _) => break Framed::Needs(n as u64),
                (ProcessResult::Err(error), _) => {
                    repeats(&mut fsm, way, &made.bytes[written..], &error.to_string())?;
                    break Framed::Refused(number(&error.to_string())?);
                }
            }
        };
        told.pieces.push(Piece { frames: told.frames.len(), end });
        if let Framed::Refused(_) = end {
            told.left = fsm.data()[..HEADER].to_vec();
            return Ok(told);
        }
    }
    told.left = if fsm.has_decoded_metadata() { fsm.data().to_vec() } else { Vec::new() };
    Ok(told)
}

/// The number of an error text.
fn number(message: &str) -> Result<u32, String> {
    match message {
        "decode: record shorter than its header" => Ok(100),
        _ => Err(format!("the crate says {message}")),
    }
}

/// After an error the decoder gives no record, whatever is written, and says the same again.
fn repeats(fsm: &mut DbnFsm, way: Way, rest: &[u8], message: &str) -> Result<(), String> {
    fsm.write_all(rest);
    match process(fsm, way) {
        (ProcessResult::Err(error), tails) if tails.is_empty() && error.to_string() == message => Ok(()),
        (other, _) => Err(format!("after an error the crate says {other:?}")),
    }
}

/// The frames of records in a buffer of `room` bytes, a multiple of eight, which is filled through `space` and so does not grow. True
/// where the decoder then asks for bytes and has no space for one.
pub fn in_buffer(version: u8, records: &[u8], room: usize) -> (Vec<Frame>, bool) {
    let builder = builder().skip_metadata(true).buffer_size(room);
    let mut fsm = builder.input_dbn_version(Some(version)).and_then(|b| b.build()).expect("a state machine");
    let (mut frames, mut rest) = (Vec::new(), records);
    loop {
        match process(&mut fsm, Way::One) {
            (ProcessResult::Record(_), tails) => frames.extend(parted(tails, fsm.data().len())),
            (ProcessResult::ReadMore(_), _) => {
                let space = fsm.space();
                let count = space.len().min(rest.len());
                if count == 0 {
                    return (frames, space.is_empty());
                }
                space[..count].copy_from_slice(&rest[..count]);
                rest = &rest[count..];
                fsm.fill(count);
            }
            _ => return (frames, false),
        }
    }
}
