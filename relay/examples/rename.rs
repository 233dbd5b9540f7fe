//! rename FILE OLD NEW: writes a DBN file below version 4 to standard output, with another symbol in its start wherever the old one stands.
use dbn_start::{BlockBuilder, Feed, Limits, Step};
use std::{
    error::Error,
    fs::File,
    io::{self, Write},
    process::ExitCode,
};

/// Reads the start of a file, and nothing past it.
fn start(file: &mut File) -> Result<BlockBuilder, Box<dyn Error>> {
    // A version 4 file also wants a type sheet: Feed::new(limits).with_sheet(sheet), and write(&sheet).
    let mut feed = Feed::new(Limits::default());
    match feed.read_from(file)? {
        Step::Done => Ok(feed.block().expect("a feed that needs nothing has a block").to_builder()),
        Step::Needs(needed) => Err(format!("the file ends {needed} bytes before the start does").into()),
    }
}

/// Every symbol of a start.
fn symbols(start: &mut BlockBuilder) -> impl Iterator<Item = &mut String> {
    let mapped = start.mappings.iter_mut().flat_map(|mapping| {
        let intervals = mapping.intervals.iter_mut().map(|interval| &mut interval.symbol);
        std::iter::once(&mut mapping.raw_symbol).chain(intervals)
    });
    start.symbols.iter_mut().chain(&mut start.partial).chain(&mut start.not_found).chain(mapped)
}

fn run() -> Result<(), Box<dyn Error>> {
    let words: Vec<String> = std::env::args().skip(1).collect();
    let [name, old, new] = &words[..] else { return Err("usage: rename FILE OLD NEW".into()) };
    let mut file = File::open(name).map_err(|error| format!("{name}: {error}"))?;
    let mut start = start(&mut file)?;
    symbols(&mut start).filter(|symbol| *symbol == old).for_each(|symbol| symbol.clone_from(new));
    // Refused where the new symbol is too wide, or is none that a reader takes: then nothing is written.
    let mut out = io::stdout().lock();
    out.write_all(&start.write(None)?)?;
    // The records come after the start, and stay as they are.
    io::copy(&mut file, &mut out)?;
    Ok(())
}

fn main() -> ExitCode {
    match run() {
        Ok(()) => ExitCode::SUCCESS,
        Err(error) => {
            eprintln!("rename: {error}");
            ExitCode::FAILURE
        }
    }
}
