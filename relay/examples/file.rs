//! file FILE: shows the start of a DBN file below version 4, and tells why where it is refused.
use dbn_start::{Day, Feed, Limits, Step};
use std::{error::Error, fs::File, process::ExitCode};

/// Reads the start of a file, and nothing past it.
fn start(file: &mut File) -> Result<Feed, Box<dyn Error>> {
    // A version 4 file also wants a type sheet: Feed::new(limits).with_sheet(sheet).
    let mut feed = Feed::new(Limits::default());
    match feed.read_from(file)? {
        Step::Done => Ok(feed),
        Step::Needs(needed) => Err(format!("the file ends {needed} bytes before the start does").into()),
    }
}

/// Prints what a start says.
fn show(feed: &Feed) {
    let block = feed.block().expect("a feed that needs nothing has a block");
    let fields = block.fields();
    println!("version {}, dataset {:?}, schema {:?}", block.version(), block.dataset(), fields.schema);
    println!("from {} to {:?}, {} bytes", fields.start, fields.end, feed.held().len());
    for (what, count) in [("symbols", block.symbols().count()), ("partly found", block.partial().count())] {
        println!("{what}: {count}");
    }
    println!("not found: {}", block.not_found().count());
    for mapping in block.mappings() {
        println!("{:?}", mapping.raw_symbol);
        for interval in mapping.intervals() {
            let [start, end] = [interval.start_date, interval.end_date].map(Day::yyyymmdd);
            println!("  {start} to {end}: {:?}", interval.symbol);
        }
    }
}

fn run() -> Result<(), Box<dyn Error>> {
    let name = std::env::args_os().nth(1).ok_or("file FILE: no file was named")?;
    let mut file = File::open(&name).map_err(|error| format!("{}: {error}", name.to_string_lossy()))?;
    show(&start(&mut file)?);
    Ok(())
}

fn main() -> ExitCode {
    match run() {
        Ok(()) => ExitCode::SUCCESS,
        Err(error) => {
            eprintln!("file: {error}");
            ExitCode::FAILURE
        }
    }
}
