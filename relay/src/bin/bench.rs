//! bench: the speed of the C functions. Each figure is a median of the thread's own CPU time, all in one run.
//!
//! First texts beside the standard library, then records beside a plain loop, house files beside a plain copy with both sums, the program morning beside a
//! plain loop, what a relay meets every day, and what a hostile sender would make, at
//! three sizes each: a cost that grows with the bytes doubles from one size to the next. `relay/bench` prints the same days
//! beside the crate dbn.
//!
//! `bench --shapes` lists the hostile shapes of the C functions, and `bench --shape NAME N` makes one call on one of them at size N, without a clock:
//! `relay/instructions` counts its instructions.
#[path = "../../measure/mod.rs"]
mod bench;

use bench::{
    alone, beside,
    calls::{Answer, Function},
    frames,
    hostile::Shape,
    house::{self, House},
    in_turn, median, medians,
    nights::Night,
    shapes, turns_of,
};
use dbn_start::{write_layout, Block, Feed, Frames, Layout, Limits, Step, Tables};
use std::{env, hint::black_box, io::Read, process::ExitCode};

fn main() -> ExitCode {
    let words: Vec<String> = env::args().skip(1).collect();
    match &words.iter().map(String::as_str).collect::<Vec<_>>()[..] {
        [] => {
            texts();
            records();
            houses();
            nights();
            daily();
            hostile();
        }
        ["--shapes"] => {
            Shape::all().iter().for_each(|shape| println!("{} {} {}", shape.function, shape.n, shape.name()));
        }
        ["--shape", name, n] => return one_call(name, n),
        _ => return usage(),
    }
    ExitCode::SUCCESS
}

fn usage() -> ExitCode {
    eprintln!("usage: bench, bench --shapes or bench --shape NAME N");
    ExitCode::FAILURE
}

/// One call on a shape.
fn one_call(name: &str, n: &str) -> ExitCode {
    let shape = Shape::all().into_iter().find(|shape| shape.name() == name);
    let (Some(shape), Ok(n)) = (shape, n.parse()) else { return usage() };
    let bytes = shape.bytes(n);
    assert_eq!(shape.ample(&bytes)().number, shape.number(), "{name}");
    ExitCode::SUCCESS
}

fn texts() {
    println!("texts: dbn_text beside std::str::from_utf8, a symbol each");
    for (width, letters) in [
        (22, "SYMBL"),
        (71, "SYMBL"),
        (22, "ÄPFEL"),
        (71, "ÄPFEL"),
        (22, "€SYMBL"),
        (71, "€SYMBL"),
        (71, "Съешь ещё этих мягких французских булок"),
    ] {
        let mut symbol = letters.as_bytes().to_vec();
        symbol.truncate(width);
        while std::str::from_utf8(&symbol).is_err() {
            symbol.pop();
        }
        symbol.resize(width, 0);
        assert!(dbn_start::is_text(&symbol));
        let (here, std) =
            beside(|| dbn_start::is_text(black_box(&symbol)), || std::str::from_utf8(black_box(&symbol)).is_ok());
        println!("  {width} bytes, {letters:?} and NULs: {here:.1} ns, std {std:.1} ns, {:.2} of std", here / std);
    }
}

/// Every record of a stream in pieces, by `Frames`.
fn read_records<'a>(pieces: impl Iterator<Item = &'a [u8]>) -> u64 {
    let (mut frames, mut sum) = (Frames::new(), 0);
    for mut piece in pieces {
        while let Some(record) = frames.next(&mut piece).expect("a record") {
            sum = frames::fold(sum, record);
        }
    }
    sum
}

fn records() {
    let stream = frames::stream();
    println!("records: {} bytes, records of 56 bytes in pieces of 64 KiB, each into a store", stream.len());
    let here = || read_records(frames::pieces(&stream));
    let (plain, at_once) = (|| frames::plain::<false>(&stream), || frames::plain::<true>(&stream));
    let copied = || frames::copied(&stream);
    assert_eq!([here(), plain(), at_once()], [copied(); 3], "the same records");
    let [here, plain, at_once, copied] = in_turn([
        &mut || _ = black_box(here()),
        &mut || _ = black_box(plain()),
        &mut || _ = black_box(at_once()),
        &mut || _ = black_box(copied()),
    ]);
    let tell = |what: &str, time: f64| println!("  {what} {:.2} ms; Frames is {:.2} of that", time / 1e6, here / time);
    println!("  Frames {:.2} ms", here / 1e6);
    tell("a plain loop", plain);
    tell("a plain loop that takes a record at once where the piece has it", at_once);
    tell("the bare copy", copied);
}

/// The program morning on a night of small starts and on one of large ones, beside a plain loop over `dbn_feed`.
fn nights() {
    println!("nights: the program morning, its process and the system's part included, beside a plain loop over dbn_feed in the same pieces");
    for (what, starts, symbols) in
        [("100,000 starts of one symbol", 100_000, 1), ("2,000 starts of 840 symbols", 2_000, 840)]
    {
        let night = Night::of(starts, symbols);
        match night.times(11) {
            Some((here, plain)) => println!(
                "  {what}, {} bytes: {:.1} ms, the plain loop {:.1} ms, {:.2} of that",
                night.bytes,
                here / 1e6,
                plain / 1e6,
                here / plain
            ),
            None => println!("  {what}: left out, since crates/morning/out/morning is missing ('scripts/build-program morning' makes it) or not for this processor"),
        }
    }
}

/// A way to store or to load.
type Work = fn(&mut House);

/// House files of starts that the reader skips nearly all of, beside a plain copy with both sums, at two sizes; then the whole calls on (a).
fn houses() {
    println!("house files: a start that the reader skips nearly all of, beside a plain copy with both sums");
    let lengths = [512 << 10, 1 << 20];
    let mut houses = lengths.map(|length| House::of(house::skipped(length)));
    lengths.iter().zip(&houses).for_each(|(length, house)| of_house(&format!("{length} bytes"), house));
    for (name, work) in [("dbn_house_store", House::store as Work), ("dbn_house_load", House::load)] {
        let [half, whole] = &mut houses;
        let turns = turns_of(101, [&mut || work(half), &mut || work(whole)]);
        let times = median(turns.iter().map(|turn| turn[1] / turn[0]).collect());
        println!("  {name}: {times:.2} times the time for 2 times the bytes");
    }
    whole_calls();
}

/// Storing (a) and loading it, beside the plain copy, which reads nothing, and beside dbn_block.
fn whole_calls() {
    let usual = usual();
    let mut house = House::of(shapes::stream_of(3, &usual));
    of_house("version 3, width 71, 1,000 symbols, 100 mappings of 4 (a)", &house);
    for (name, work) in [("dbn_house_store", House::store as Work), ("dbn_house_load", House::load)] {
        let mut block = Function::Block.exact(3, &usual);
        let turns = turns_of(101, [&mut || work(&mut house), &mut || _ = black_box(block())]);
        let (ratio, [_, read]) = (median(turns.iter().map(|turn| turn[0] / turn[1]).collect()), medians(&turns));
        println!("  {name}, (a): {ratio:.2} of dbn_block, {:.1} us", read / 1e3);
    }
}

/// Storing and loading take turns with the plain program. The ratios are medians of those of each turn.
fn of_house(what: &str, house: &House) {
    let mut houses: [House; 2] = std::array::from_fn(|_| house.clone());
    houses.iter_mut().for_each(House::agreed);
    let [here, plain] = &mut houses;
    let stored = turns_of(101, [&mut || here.store(), &mut || plain.plain_store()]);
    let loaded = turns_of(101, [&mut || here.load(), &mut || plain.plain_load()]);
    for (name, turns) in [("dbn_house_store", stored), ("dbn_house_load", loaded)] {
        let ratio = median(turns.iter().map(|turn| turn[0] / turn[1]).collect());
        let [here, plain] = medians(&turns);
        println!("  {name}, {what}: {:.1} us, {:.1} us, {ratio:.2} of it", here / 1e3, plain / 1e3);
    }
}

/// The time of a call with tables that are just long enough, and its answer.
fn timed(function: Function, version: u8, bytes: &[u8]) -> (f64, Answer) {
    let mut call = function.exact(version, bytes);
    let answer = call();
    (alone(call), answer)
}

/// A block of version 3, 1,000 symbols of 71 bytes and 100 mappings of 4 intervals: (a).
fn usual() -> Vec<u8> {
    shapes::block(3, 71, &shapes::symbology(71, 1000, 100, 4))
}

fn daily() {
    println!("daily: bytes, time, bytes per ns");
    let tell = |what: &str, function: Function, version: u8, bytes: &[u8]| {
        let (time, answer) = timed(function, version, bytes);
        assert_eq!(answer.number, 0, "{what}");
        println!("  {function}, {what}: {} bytes, {:.1} us, {:.2}", bytes.len(), time / 1e3, bytes.len() as f64 / time);
    };
    let (first, inner) = (shapes::block(1, 22, &shapes::symbology(22, 1000, 100, 4)), shapes::daily());
    for function in [Function::Block, Function::WriteBlock] {
        tell("version 3, width 71, 1,000 symbols, 100 mappings of 4 (a)", function, 3, &usual());
        tell("version 1, the same (b)", function, 1, &first);
        tell("version 4, 20 records with 405 fields (c)", function, 4, &shapes::block4(&inner));
    }
    tell("that layout", Function::Write, 4, &inner);
    tidy(&inner, &shapes::daily_of(40));
    starts(3, &usual());
}

/// Whether the layout of (c) is tidy, beside reading it and beside reading, writing and comparing it; and the same for one of about twice the bytes.
fn tidy(one: &[u8], two: &[u8]) {
    let times = [("that layout", one), ("that layout with 40 records", two)].map(|(what, bytes)| {
        let (mut tidy, mut read) = (Function::Tidy.exact(4, bytes), Function::Layout.exact(4, bytes));
        assert_eq!([tidy().number, read().number], [0; 2], "{what}");
        let (sheet, mut tables, mut output) = (shapes::sheet(), Tables::default(), vec![0; bytes.len()]);
        let mut compared = || {
            let read = Layout::read(black_box(bytes), 71, &sheet, &mut tables).expect("an accepted layout");
            let written = write_layout(read.numbers(), bytes, read.version(), 71, &sheet, &mut output);
            assert!(written == Ok(bytes.len()) && output == bytes, "{what}");
        };
        let [tidy, read, compared] =
            in_turn([&mut || _ = black_box(tidy()), &mut || _ = black_box(read()), &mut compared]);
        let (of_read, of_compared) = (tidy / read, tidy / compared);
        print!("  dbn_tidy, {what}: {} bytes, {:.1} us, {of_read:.2} of dbn_layout", bytes.len(), tidy / 1e3);
        println!(", {of_compared:.2} of reading, writing and comparing");
        tidy
    });
    let (bytes, time) = (two.len() as f64 / one.len() as f64, times[1] / times[0]);
    println!("  dbn_tidy: {time:.2} times the time for {bytes:.2} times the bytes");
}

/// A way to read a start.
type Way = fn(&mut Feed, &[u8]);

/// The start of a stream beside one `Block::read` of the same bytes: a new feed beside new tables, and one that begins anew beside tables that
/// are kept. A feed holds what comes, so every byte is copied once at least, and the bare copy is told too.
fn starts(version: u8, block: &[u8]) {
    let stream = shapes::stream_of(version, block);
    let ways: [(&str, Way); 4] = [
        ("Feed::read_from a slice", read_from),
        ("Feed::feed, pieces of 4,096 bytes", |feed, stream| in_pieces(feed, stream, 4_096)),
        ("Feed::feed, pieces of 65,536 bytes", |feed, stream| in_pieces(feed, stream, 65_536)),
        ("Feed::feed, pieces of 4,096 bytes that are read from a slice", through_a_buffer),
    ];
    let mut store = stream.clone();
    let mut copy = || black_box(&mut store).copy_from_slice(black_box(&stream));
    for (what, read) in ways {
        let mut first = || read(&mut Feed::new(Limits::default()), black_box(&stream));
        let mut made = || block_read(version, block, &mut Tables::default());
        let turns = turns_of(301, [&mut first, &mut made, &mut copy]);
        tell_start(&format!("{what}, a new Feed beside Block::read with new tables"), &turns);
        let (mut feed, mut tables) = (Feed::new(Limits::default()), Tables::default());
        let mut again = || {
            feed.reset();
            read(&mut feed, black_box(&stream));
        };
        let mut kept = || block_read(version, block, &mut tables);
        let turns = turns_of(301, [&mut again, &mut kept, &mut copy]);
        tell_start(&format!("{what}, a Feed that begins anew beside Block::read with kept tables"), &turns);
    }
}

/// The ratios are medians of those of each turn.
fn tell_start(what: &str, turns: &[[f64; 3]]) {
    let of_block = |i: usize| median(turns.iter().map(|turn| turn[i] / turn[1]).collect());
    let [feed, block, _] = medians(turns).map(|time| time / 1e3);
    println!("  {what}: {feed:.1} us, {block:.1} us, {:.2} of it; the bare copy {:.2}", of_block(0), of_block(2));
}

fn block_read(version: u8, bytes: &[u8], tables: &mut Tables) {
    black_box(Block::read(version, black_box(bytes), None, tables).expect("an accepted block"));
}

/// The README's start. What the slice copies into the feed's store counts.
fn read_from(feed: &mut Feed, mut socket: &[u8]) {
    assert_eq!(feed.read_from(&mut socket).expect("an accepted start"), Step::Done);
}

/// The start in pieces of at most so many bytes, and none past the block. The pieces are parts of the stream, so what a socket copies does not count.
fn in_pieces(feed: &mut Feed, mut socket: &[u8], most: usize) {
    while let Step::Needs(n) = feed.step().expect("an accepted start") {
        let (piece, later) = socket.split_at(n.min(most).min(socket.len()));
        socket = later;
        feed.feed(black_box(piece)).expect("an accepted start");
    }
}

/// The same, where what a socket copies into a buffer counts.
fn through_a_buffer(feed: &mut Feed, mut socket: &[u8]) {
    let mut buffer = [0; 4_096];
    while let Step::Needs(n) = feed.step().expect("an accepted start") {
        let n = socket.read(&mut buffer[..n.min(4_096)]).expect("a piece");
        feed.feed(black_box(&buffer[..n])).expect("an accepted start");
    }
}

fn hostile() {
    println!("hostile: bytes, time, times the time of half the size; and the time for each byte as a multiple of that of (a), dbn_block of the");
    println!("  version 3 block above. Bytes read or written count, and 24 for each row that is written, or read by a writer");
    let usual = usual();
    let mut worst = (0.0, String::new());
    for shape in Shape::all() {
        let name = shape.name();
        let times = rising(&name, shape.n, &usual, |n, measure| {
            let bytes = shape.bytes(n);
            let mut call = shape.exact(&bytes);
            let answer = call();
            assert_eq!(answer.number, shape.number(), "{name}");
            measure(&mut || _ = black_box(call()), bytes.len(), answer.cost(bytes.len()));
        });
        println!();
        if times > worst.0 {
            worst = (times, name);
        }
    }
    println!("  the worst is {:.2} of (a): {}", worst.0, worst.1);
    hostile_records(&usual);
}

/// Records of one length, in pieces of one byte and of 64 KiB. These are calls: each piece is one, and so is each record.
fn hostile_records(usual: &[u8]) {
    for (words, n, piece) in [(4, 65_536, 1), (4, 65_536, 64 << 10), (255, 1_024, 1)] {
        let name = format!("Frames, records of {} bytes in pieces of {piece}", 4 * words as usize);
        rising(&name, n, usual, |n, measure| {
            let stream = [words].repeat(4 * words as usize * n);
            let mut read = || _ = black_box(read_records(black_box(&stream[..]).chunks(piece)));
            measure(&mut read, stream.len(), stream.len() as f64);
        });
        println!("{}", if piece == 1 { ", apart: a call for each byte" } else { ", apart: a call for each record" });
    }
}

/// Measures work on so many bytes, which cost as much as so many.
type Measure<'a> = &'a mut dyn FnMut(&mut dyn FnMut(), usize, f64);

/// Prints the times of a quarter, a half and the whole of `n`, and gives the time for each byte of the whole as a multiple of that of (a).
fn rising(what: &str, n: usize, usual: &[u8], work: impl Fn(usize, Measure)) -> f64 {
    let mut call = Function::Block.exact(3, usual);
    let usual = call().cost(usual.len());
    let (mut before, mut of_usual) = (None, 0.0);
    print!("  {n} {what}:");
    for n in [n / 4, n / 2, n] {
        work(n, &mut |work, bytes, cost| {
            let turns = turns_of(31, [work, &mut || _ = black_box(call())]);
            let time = medians(&turns)[0];
            of_usual = median(turns.iter().map(|turn| turn[0] / turn[1] * usual / cost).collect());
            let ratio = before.map_or(String::new(), |before| format!(" (x {:.2})", time / before));
            print!(" {bytes} bytes {:.0} us{ratio},", time / 1e3);
            before = Some(time);
        });
    }
    print!(" {of_usual:.2} of (a)");
    of_usual
}
