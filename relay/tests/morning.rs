//! The program morning, as `scripts/morning` runs it: the report on a night of starts, held to a stored one. The script has it built. Each file of
//! `tests/nights` was counted from what its test puts in.
mod common;

use common::program::{at, command, failed, file, run, run_in_pieces, sheet, told, version_2, Ran};
use common::stream_of;
use dbn_start::BlockBuilder;
use std::process::Command;

const DATASET: &[u8; 16] = b"GLBX.MDP3\0\0\0\0\0\0\0";

fn morning(args: &[&str]) -> Command {
    command("scripts/morning", args)
}

/// The stored report of this name.
fn stored(name: &str) -> String {
    std::fs::read_to_string(at(&format!("relay/tests/nights/{name}.out"))).expect("a stored report")
}

/// The report on a night must be the stored one, and in it what was accepted, refused and cut must sum to the total.
fn counted(name: &str, args: &[&str], night: &[u8]) {
    reported(&run(morning(args), night), &stored(name));
}

fn reported(ran: &Ran, report: &str) {
    assert_eq!(ran, &told(0, report));
    assert_eq!(sum(&ran.out), total(&ran.out), "{report}");
}

/// What was accepted, refused by each number and cut, in all.
fn sum(report: &str) -> u64 {
    let counts =
        report.lines().filter(|line| ["accepted", "refused", "cut"].contains(&line.split(' ').next().unwrap()));
    counts.map(last).sum()
}

fn total(report: &str) -> u64 {
    last(report.lines().find(|line| line.starts_with("total ")).expect("a total"))
}

fn last(line: &str) -> u64 {
    line.rsplit(' ').next().and_then(|word| word.parse().ok()).expect("a number at the line's end")
}

/// An accepted start of this version with so many symbols.
fn accepted(version: u8, symbols: usize) -> Vec<u8> {
    let mut start = BlockBuilder::new(version);
    start.dataset = "GLBX.MDP3".into();
    start.symbols = (0..symbols).map(|i| format!("ES{i}")).collect();
    start.write(None).expect("a start")
}

/// A start with one byte changed. Byte 0 is that of the prelude.
fn changed(mut start: Vec<u8>, place: usize, byte: u8) -> Vec<u8> {
    start[place] = byte;
    start
}

/// The stored version 4 start, which has a layout and ten symbology rows, without what follows it.
fn version_4() -> Vec<u8> {
    let mut stream = std::fs::read(at("crates/show/stdin")).expect("the stored stream");
    stream.truncate(stream.len() - 48);
    stream
}

/// A version 4 start whose layout is one label def with so many labels: one row more than labels.
fn with_labels(labels: u16) -> Vec<u8> {
    let mut body = b"\x04Side\0".to_vec();
    body.extend(labels.to_le_bytes());
    for code in 0..labels {
        body.extend(code.to_le_bytes());
        body.extend(b"\x01A\0");
    }
    let mut layout = vec![1, 0, 0, 0, 0, 0, 1, 0];
    layout.extend((body.len() as u16 + 2).to_le_bytes());
    layout.extend(body);
    let mut block = vec![0; 100];
    block.extend((layout.len() as u32).to_le_bytes());
    block.extend(layout);
    block.extend(16u32.to_le_bytes());
    block.extend([0; 16]);
    stream_of(4, &block)
}

#[test]
fn nothing() {
    counted("empty", &[], b"");
}

/// Fewer than eight bytes are cut, whatever they are.
#[test]
fn cut_in_a_prelude() {
    let start = accepted(2, 3);
    for end in [&b"D"[..], b"DBN\x02\x78\0\0", b"X", b"no DBN."] {
        counted("cut_in_prelude", &[], &[&start, end].concat());
    }
}

#[test]
fn cut_in_a_block() {
    let (start, next) = (accepted(3, 2), accepted(1, 5));
    for held in [8, 9, 100, next.len() - 1] {
        counted("cut_in_block", &[], &[&start, &next[..held]].concat());
    }
}

/// A prelude that is refused counts once, and what follows it is not read.
#[test]
fn a_prelude_that_is_refused() {
    let start = accepted(2, 4);
    for (name, place, byte) in [("prelude_10", 2, b'X'), ("prelude_11", 3, 5), ("prelude_12", 4, 99)] {
        let broken = changed(stream_of(2, &[0; 100]), place, byte);
        assert_eq!(broken[4], if place == 4 { 99 } else { 100 });
        counted(name, &[], &[&start[..], &start, &broken, &start].concat());
        counted(name, &[], &[&start[..], &start, &broken[..8]].concat());
    }
}

/// The store of 65,536 bytes has room for a block of 65,528, and a larger one ends the reading at its prelude.
#[test]
fn a_block_beyond_the_store() {
    let least = version_2(DATASET, 8, &[b"ES"], 0).len();
    let full = version_2(DATASET, 8, &[b"ES"], 65_536 - least);
    let larger = version_2(DATASET, 8, &[b"ES"], 65_537 - least);
    assert_eq!((full.len(), larger.len()), (65_536, 65_537));
    counted("store_2", &[], &[&full[..], &full, &larger, &full].concat());
    counted("store_2", &[], &[&full[..], &full, &larger[..8]].concat());
}

/// Each table has room for 1,024 rows, and a block with more ends the reading.
#[test]
fn a_block_beyond_a_table() {
    let symbols = vec![&b"ES"[..]; 1_025];
    let (full, larger) = (version_2(DATASET, 8, &symbols[1..], 0), version_2(DATASET, 8, &symbols, 0));
    counted("symbology_3", &[], &[&full[..], &full, &larger, &full].concat());
    let (full, larger) = (with_labels(1_023), with_labels(1_024));
    counted("layout_3", &[], &[&full[..], &full, &full, &larger, &full].concat());
}

/// One start for each of several numbers, in rising order, and four that are accepted with 1, 2, 3 and 10 rows.
fn one_of_each() -> (Vec<Vec<u8>>, Vec<Vec<u8>>) {
    let plain = version_2(DATASET, 8, &[b"ES"], 0);
    let refused = vec![
        changed(plain.clone(), 8, 0xff),             // 20: the dataset is not UTF-8
        changed(plain.clone(), 8 + 16, 20),          // 21: a schema of 65300
        changed(accepted(3, 1), 8 + 43, 13),         // 23: a stype_out of 13
        changed(accepted(2, 1), 8 + 15, b'x'),       // 29: more than NULs after a NUL
        changed(accepted(1, 2), 8 + 104 + 3, 1),     // 31: a count that is too large
        version_2(DATASET, 8, &[b"\xff"], 0),        // 32: a symbol that is not UTF-8
        version_2(DATASET, 8, &[b"ES", b"A\0B"], 0), // 41: a symbol with more than NULs after a NUL
        changed(plain, 8 + 100, 255),                // 44: a layout past the end
        changed(version_4(), 8 + 104 + 6, 0x4E),     // 62: an rtype's low byte
    ];
    (vec![accepted(1, 1), accepted(2, 2), accepted(3, 3), version_4()], refused)
}

/// Start i of `refused` comes i + 1 times, and after each of these 45 come the four that are accepted.
#[test]
fn many_blocks_of_several_numbers() {
    let (accepted, refused) = one_of_each();
    let mut night = Vec::new();
    for (i, start) in refused.iter().enumerate() {
        for _ in 0..=i {
            night.extend(start);
            night.extend(accepted.concat());
        }
    }
    counted("many", &[], &night);
    // The same with a seven-byte end, a byte at a time.
    night.extend(b"DBN\x01\xff\0\0");
    reported(&run_in_pieces(morning(&[]), &night, 1), &stored("many_and_cut"));
}

/// Of ten starts six are accepted, with 1 + 2 + 3 + 10 + 1 + 2 rows, and four are refused.
#[test]
fn ten_thousand_blocks() {
    let (accepted, refused) = one_of_each();
    let ten: Vec<u8> = [&accepted[..], &accepted[..2], &refused[..2], &refused[7..]].concat().concat();
    counted("ten_thousand", &[], &ten.repeat(1_000));
}

#[test]
fn the_stored_night() {
    let night = std::fs::read(at("crates/morning/stdin")).expect("the stored night");
    let report = std::fs::read_to_string(at("crates/morning/stdout")).expect("the stored report");
    reported(&run(morning(&[]), &night), &report);
}

#[test]
fn a_read_that_fails() {
    let mut folder = morning(&[]);
    folder.stdin(std::fs::File::open("/").expect("a folder"));
    let output = folder.output().expect("scripts/morning runs");
    assert_eq!(output.stderr, b"morning: standard input: Is a directory\n");
    assert_eq!((output.status.code(), output.stdout.len()), (Some(1), 0));
}

/// With a header of 64 bytes the record of the version 4 start is too short for one: 63.
#[test]
fn a_type_sheet_of_ones_own() {
    let night = [version_4(), accepted(3, 2), version_4()].concat();
    counted("made_sheet", &[], &night);
    let same = sheet("morning_same.sheet", 519, 0);
    counted("made_sheet", &["--sheet", &same], &night);
    let long_header = sheet("morning_long_header.sheet", 518, 64);
    counted("own_sheet", &["--sheet", &long_header], &night);
}

#[test]
fn a_type_sheet_that_cannot_be_used() {
    let missing = failed("morning: no such file: No such file or directory\n");
    assert_eq!(run(morning(&["--sheet", "no such file"]), b""), missing);
    for (name, len) in [("morning_short.sheet", 1039), ("morning_long.sheet", 1041), ("morning_empty.sheet", 0)] {
        let path = file(name, &vec![0; len]);
        let err = format!("morning: {path}: no type sheet of 1,040 bytes could be read from it\n");
        assert_eq!(run(morning(&["--sheet", &path]), b""), failed(&err));
    }
    assert_eq!(run(morning(&["--sheet"]), b""), failed("morning: --sheet: the file's name is missing\n"));
}

#[test]
fn options_that_cannot_be_used() {
    for word in ["--staus", "--tidy", "-", "crates/morning/stdin", "no\nfile", ""] {
        let escaped = word.replace('\n', "\\x0a");
        let err = format!("morning: {escaped}: no such option, morning --help says which there are\n");
        assert_eq!(run(morning(&[word]), b""), failed(&err));
    }
}

#[test]
fn help() {
    let ran = run(morning(&["--help"]), b"");
    assert_eq!((ran.status, ran.err.as_str()), (0, ""));
    let words =
        ["morning [--sheet FILE]\n", "  --sheet FILE ", "  --status ", "  --help ", "0 whatever was counted, 1 "];
    for word in words {
        assert!(ran.out.contains(word), "{word}");
    }
}

#[test]
fn a_report_that_cannot_be_written() {
    let Ok(full) = std::fs::OpenOptions::new().write(true).open("/dev/full") else { return };
    let mut command = morning(&[]);
    command.stdout(full);
    assert_eq!(run(command, b""), failed("morning: standard output: No space left on device\n"));
}

#[test]
fn a_program_that_is_missing() {
    let ran = run(command("scripts/run-program", &["no_program"]), b"");
    assert_eq!((ran.status, ran.out.as_str()), (2, ""));
    assert_eq!(ran.err, "no_program: no such program: crates/no_program/src/main.rt is missing\n");
}
