//! tcp ADDRESS: reads the start of a DBN stream below version 4 and its records from a TCP socket, and counts the records.
//!
//! `tcp --serve FILE` sends a file instead, in small pieces, to whoever connects first; it prints the address to connect to.
use dbn_start::{Feed, Frames, Limits, Step};
use std::{
    error::Error,
    io::{Read, Write},
    net::{TcpListener, TcpStream},
    process::ExitCode,
    time::Duration,
};

/// Records by their rtype, and how many bytes they have.
struct Count {
    by_rtype: [u64; 256],
    bytes: usize,
}

/// Reads a stream to its end. Bytes past its start, in the same buffer, are the first ones of its records.
fn stream(socket: &mut TcpStream) -> Result<(Feed, Frames, Count), Box<dyn Error>> {
    // A version 4 stream also wants a type sheet: Feed::new(limits).with_sheet(sheet). Its records are not for Frames.
    let mut feed = Feed::new(Limits { bytes: 1 << 20, rows: 1 << 16 });
    let (mut frames, mut count) = (Frames::new(), Count { by_rtype: [0; 256], bytes: 0 });
    let mut buffer = [0; 4096];
    loop {
        let length = socket.read(&mut buffer)?;
        if length == 0 {
            break;
        }
        let taken = feed.feed(&buffer[..length])?.taken;
        let mut rest = &buffer[taken..length];
        while let Some(frame) = frames.next(&mut rest)? {
            count.by_rtype[frame[1] as usize] += 1;
            count.bytes += frame.len();
        }
    }
    match feed.step()? {
        Step::Done => Ok((feed, frames, count)),
        Step::Needs(n) => Err(format!("the other side closed {n} bytes before the end of the start").into()),
    }
}

/// Reads a stream from an address, and prints its start and a count of its records.
fn read(address: &str) -> Result<(), Box<dyn Error>> {
    let mut socket = TcpStream::connect(address)?;
    socket.set_read_timeout(Some(Duration::from_secs(10)))?;
    let (feed, frames, count) = stream(&mut socket)?;
    let block = feed.block().expect("a feed that needs nothing has a block");
    let intervals = block.intervals().count();
    println!("{}, version {}: {} bytes of start", block.dataset(), block.version(), feed.held().len());
    println!("{} mappings, {intervals} intervals", block.mappings().count());
    println!("{} records, {} bytes", count.by_rtype.iter().sum::<u64>(), count.bytes);
    for (rtype, records) in count.by_rtype.iter().enumerate().filter(|(_, &records)| records > 0) {
        println!("rtype {rtype}: {records}");
    }
    if !frames.held().is_empty() {
        println!("{} bytes of a record that is cut short", frames.held().len());
    }
    Ok(())
}

/// Sends a file in pieces of 83 bytes.
fn serve(name: &str) -> Result<(), Box<dyn Error>> {
    let bytes = std::fs::read(name).map_err(|error| format!("{name}: {error}"))?;
    let listener = TcpListener::bind("127.0.0.1:0")?;
    println!("{}", listener.local_addr()?);
    let (mut socket, _) = listener.accept()?;
    socket.set_nodelay(true)?;
    for piece in bytes.chunks(83) {
        socket.write_all(piece)?;
    }
    Ok(())
}

fn main() -> ExitCode {
    let words: Vec<String> = std::env::args().skip(1).collect();
    let done = match words.iter().map(String::as_str).collect::<Vec<_>>()[..] {
        ["--serve", name] => serve(name),
        [address] => read(address),
        _ => Err("tcp ADDRESS, or tcp --serve FILE".into()),
    };
    match done {
        Ok(()) => ExitCode::SUCCESS,
        Err(error) => {
            eprintln!("tcp: {error}");
            ExitCode::FAILURE
        }
    }
}
