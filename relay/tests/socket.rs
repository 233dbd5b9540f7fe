//! Reading from something like a socket, which gives what it likes of what was asked for.
mod common;
use common::{capture, stream_of};
use dbn_start::{Feed, Limits, Refusal, RefusalKind, Step};
use std::io::{self, Read};

/// Gives at most `most` bytes at a time.
struct Socket<'a> {
    bytes: &'a [u8],
    most: usize,
}

impl Read for Socket<'_> {
    fn read(&mut self, buffer: &mut [u8]) -> io::Result<usize> {
        let n = self.most.min(buffer.len()).min(self.bytes.len());
        buffer[..n].copy_from_slice(&self.bytes[..n]);
        self.bytes = &self.bytes[n..];
        Ok(n)
    }
}

/// The start of the README.
fn start(socket: &mut impl Read) -> io::Result<Feed> {
    let mut feed = Feed::new(Limits::default());
    if let Step::Needs(_) = feed.read_from(socket)? {
        return Err(io::ErrorKind::UnexpectedEof.into());
    }
    Ok(feed)
}

/// The same in pieces.
fn in_pieces(socket: &mut impl Read) -> io::Result<Feed> {
    let (mut feed, mut buffer) = (Feed::new(Limits::default()), [0; 4096]);
    while let Step::Needs(n) = feed.step().map_err(io::Error::other)? {
        let n = socket.read(&mut buffer[..n.min(4096)])?;
        if n == 0 {
            return Err(io::ErrorKind::UnexpectedEof.into());
        }
        feed.feed(&buffer[..n]).map_err(io::Error::other)?;
    }
    Ok(feed)
}

#[test]
fn a_start_is_read_and_the_records_stay_in_the_socket() {
    let (mut bytes, _) = capture();
    let whole = bytes.len();
    bytes.extend(b"records");
    for most in [1, 2, 7, 100, 4096] {
        for start in [start, in_pieces] {
            let mut socket = Socket { bytes: &bytes, most };
            let feed = start(&mut socket).unwrap();
            assert_eq!(feed.held(), &bytes[..whole]);
            assert_eq!(feed.block().unwrap().mappings().map(|m| m.intervals().count()).collect::<Vec<_>>(), [4]);
            assert_eq!(socket.bytes, b"records");
        }
    }
}

#[test]
fn a_long_start_is_read_and_the_records_stay_in_the_socket() {
    let mut block = vec![0; 104];
    block[45] = 71;
    block.extend(3_000u32.to_le_bytes());
    block.extend((0..3_000).flat_map(|i| format!("{i:071}").into_bytes()));
    block.extend([0; 12]);
    let bytes = [stream_of(3, &block), b"records".to_vec()].concat();
    for most in [7, 4_096, 1 << 20] {
        for start in [start, in_pieces] {
            let mut socket = Socket { bytes: &bytes, most };
            let feed = start(&mut socket).unwrap();
            assert_eq!((feed.held(), socket.bytes), bytes.split_at(bytes.len() - 7));
            assert_eq!(feed.block().unwrap().symbols().last(), Some(&format!("{:071}", 2_999)[..]));
        }
    }
}

/// Gives a byte, then has nothing at the moment, and so on.
struct Slow<'a> {
    bytes: &'a [u8],
    now: bool,
}

impl Read for Slow<'_> {
    fn read(&mut self, buffer: &mut [u8]) -> io::Result<usize> {
        self.now = !self.now;
        if self.now {
            self.bytes.read(&mut buffer[..1])
        } else {
            Err(io::ErrorKind::WouldBlock.into())
        }
    }
}

#[test]
fn a_source_that_has_nothing_at_the_moment_goes_on_later() {
    let (mut bytes, _) = capture();
    let whole = bytes.len();
    bytes.extend(b"records");
    let (mut feed, mut slow, mut waits) = (Feed::new(Limits::default()), Slow { bytes: &bytes, now: false }, 0);
    let step = loop {
        match feed.read_from(&mut slow) {
            Ok(step) => break step,
            Err(error) => assert_eq!(error.kind(), io::ErrorKind::WouldBlock),
        }
        waits += 1;
        assert_eq!(feed.held(), &bytes[..waits]);
    };
    assert_eq!((step, waits, feed.held(), slow.bytes), (Step::Done, whole - 1, &bytes[..whole], &b"records"[..]));
    assert_eq!(feed.read_from(&mut slow).unwrap(), Step::Done);
    assert_eq!(slow.bytes, b"records", "after Done nothing is read");
}

#[test]
fn an_end_inside_the_start_is_told() {
    let (bytes, _) = capture();
    for end in [0, 5, 8, 107, bytes.len() - 1] {
        for start in [start, in_pieces] {
            let error = start(&mut Socket { bytes: &bytes[..end], most: 50 }).expect_err("the stream ends early");
            assert_eq!(error.kind(), io::ErrorKind::UnexpectedEof);
        }
        let mut feed = Feed::new(Limits::default());
        let needs = Step::Needs(if end < 8 { 8 } else { bytes.len() } - end);
        assert_eq!(feed.read_from(&mut &bytes[..end]).unwrap(), needs);
        assert_eq!(feed.read_from(&mut &bytes[end..]).unwrap(), Step::Done, "another source goes on");
    }
}

#[test]
fn a_refusal_is_told() {
    for start in [start, in_pieces] {
        let error = start(&mut Socket { bytes: b"DBN\x07\x64\0\0\0", most: 50 }).expect_err("version 7");
        assert_eq!(error.to_string(), "refused by 11 at byte 3: the version is not 1 to 4");
    }
    let (mut feed, mut socket) = (Feed::new(Limits::default()), &b"DBN\x07\x64\0\0\0more"[..]);
    for _ in 0..2 {
        let error = feed.read_from(&mut socket).expect_err("version 7");
        let inner = error.get_ref().and_then(|inner| inner.downcast_ref::<Refusal>()).expect("a refusal").kind();
        assert_eq!((inner, socket), (RefusalKind::Version, &b"more"[..]));
    }
    assert_eq!(feed.step().map_err(Refusal::kind), Err(RefusalKind::Version));
}
