//! The program show, as `scripts/show` runs it: what it writes, where, and the status it ends with. The script has it built.
mod common;

use common::program::{at, failed, file, run, sheet, told, version_2, Ran};
use std::process::Command;

fn command(args: &[&str]) -> Command {
    common::program::command("scripts/show", args)
}

fn show(args: &[&str], input: &[u8]) -> Ran {
    run(command(args), input)
}

/// The stored version 4 stream, and what is stored for it.
fn stored() -> (Vec<u8>, String) {
    let stream = std::fs::read(at("crates/show/stdin")).expect("the stored stream");
    (stream, std::fs::read_to_string(at("crates/show/stdout")).expect("the stored report"))
}

/// The layout of the stored stream, 414 bytes. From byte 4 on stands a record's section of 298 bytes, whose first entry begins at
/// byte 29, and at bytes 400 and 407 the codes of the two labels.
fn layout() -> Vec<u8> {
    stored().0[112..526].to_vec()
}

const MADE: &str = "type sheet: a made one, not Databento's; --sheet FILE gives another\n";
const GIVEN: &str = "type sheet: the given one\n";
const USUAL: &str = "symbol width: 71; --width N gives another\n";

/// What is told of a layout that is judged with the usual width and the made sheet.
fn judged(status: i32, verdict: &str) -> Ran {
    told(status, &format!("{verdict}{USUAL}{MADE}"))
}

#[test]
fn accepted_from_a_file_and_from_standard_input() {
    let (stream, report) = stored();
    assert!(report.contains(MADE));
    let path = at("crates/show/stdin");
    assert_eq!(show(&[path.to_str().expect("a path in UTF-8")], b""), told(0, &report));
    assert_eq!(show(&[], &stream), told(0, &report));
    assert_eq!(show(&["-"], &stream), told(0, &report));
}

#[test]
fn refused_with_the_sentence_of_its_number() {
    let (mut no_date, _) = stored();
    let place = no_date.windows(4).rposition(|four| four == 20230317u32.to_le_bytes()).expect("a date");
    no_date[place] = 0;
    let around = "01 00 00 00 d5 af 34 01 [00] b0 34 01 32 31 33 30 00\n";
    let end_date = format!("refused 39: An interval's end is no date.\nplace {} of the block\n{around}", place - 8);
    assert_eq!(show(&[], &no_date), told(1, &end_date));
}

#[test]
fn a_place_of_the_prelude_and_the_bytes_around_it() {
    let magic = "refused 10: The stream does not begin with DBN.\nplace 0 of the prelude\n[44] 42 58 04 5f 5f 5f 5f\n";
    assert_eq!(show(&[], b"DBX\x04____ and more"), told(1, magic));
    let version = "refused 11: The version is not 1 to 4.\nplace 3 of the prelude\n44 42 4e [09] 64 00 00 00\n";
    assert_eq!(show(&[], b"DBN\x09\x64\0\0\0"), told(1, version));
    let length = "refused 12: The block length is below 100.\nplace 4 of the prelude\n44 42 4e 04 [63] 00 00 00\n";
    assert_eq!(show(&[], b"DBN\x04\x63\0\0\0"), told(1, length));
}

#[test]
fn a_place_of_the_block_and_the_bytes_around_it() {
    let stream = version_2(b"GLBX.MDP3\0\0\0\0\0\0\0", 8, &[], 0);
    // What is told of the stream with one byte of its block changed, and the block cut to this length.
    let told_of = |place: usize, byte: u8, length: usize| {
        let mut stream = stream[..8 + length].to_vec();
        stream[8 + place] = byte;
        stream[4..8].copy_from_slice(&(length as u32).to_le_bytes());
        show(&[], &stream)
    };
    let dataset = "refused 20: The dataset is not UTF-8.\nplace 0 of the block\n[ff] 4c 42 58 2e 4d 44 50 33\n";
    assert_eq!(told_of(0, 0xff, 120), told(1, dataset));
    let after_nul = "refused 29: The dataset has more than NULs after a NUL.\nplace 0 of the block\n\
        [47] 4c 42 58 2e 4d 44 50 33\n";
    assert_eq!(told_of(15, b'x', 120), told(1, after_nul));
    let schema = "refused 21: The schema is unknown.\nplace 16 of the block\n\
        33 00 00 00 00 00 00 00 [14] ff 00 00 00 00 00 00 00\n";
    assert_eq!(told_of(16, 20, 120), told(1, schema));
    let missing = "refused 24: The layout's length is missing.\nplace 100 of the block\n\
        00 00 00 00 00 00 00 00 [07] 00 00\n";
    assert_eq!(told_of(100, 7, 103), told(1, missing));
    // 17 bytes of a layout, of which 16, 1 and none are there.
    for (length, after) in [(120, "[00] 00 00 00 00 00 00 00 00"), (105, "[00]"), (104, "[]")] {
        let past_end = "refused 44: The layout goes past the end of the block.\nplace 104 of the block\n";
        let around = format!("{past_end}00 00 00 00 11 00 00 00 {after}\n");
        assert_eq!(told_of(100, 17, length), told(1, &around));
    }
}

#[test]
fn every_number_of_a_reader_has_a_sentence() {
    let numbers = std::fs::read_to_string(at("crates/refusal/src/lib.rt")).expect("the numbers");
    let sentences = std::fs::read_to_string(at("crates/show/src/refusals.rt")).expect("the sentences");
    let numbers = numbers.lines().filter_map(|line| {
        let (name, number) = line.strip_prefix("pub const ")?.strip_suffix(';')?.split_once(": u32 = ")?;
        Some((name, number.parse::<u32>().ok()?))
    });
    let of_readers: Vec<_> = numbers.filter(|(_, n)| *n < 90).collect();
    assert_eq!(of_readers.len(), 57);
    for (name, n) in of_readers {
        assert!(sentences.contains(&format!("\n        refusal::{name} => ")), "{n} has no sentence");
    }
}

#[test]
fn cut_short() {
    let (stream, _) = stored();
    assert_eq!(show(&[], b""), told(1, "The input ends here. Bytes still needed: 8\n"));
    let whole = 8 + u32::from_le_bytes(stream[4..8].try_into().expect("four bytes")) as usize;
    for held in [8, 100, 4096.min(whole - 1), whole - 1] {
        let needed = format!("The input ends here. Bytes still needed: {}\n", whole - held);
        assert_eq!(show(&[], &stream[..held]), told(1, &needed));
    }
}

#[test]
fn a_hostile_name_forges_no_line() {
    let symbol = b"A\r\nrecord: B\x1b[2J\\x43\x7f\xc3\xa9\xe2\x80\xae";
    let shown = show(&[], &version_2(b"D\nversion: 9\\\0\0\0", 40, &[symbol], 0));
    let report = "version: 2\ndataset: D\\x0aversion: 9\\\\\nschema: none\nstart: 1970-01-01 00:00:00.000000000 UTC\nend: none\n\
        limit: none\nstype_in: none\nstype_out: 12 (figi_ticker)\nts_out: no\nsymbol width: 40\nlayout version: none\nsymbology rows: 1\n\
        layout rows: 0\nsymbol: A\\x0d\\x0arecord: B\\x1b[2J\\\\x43\\x7f\\xc3\\xa9\\xe2\\x80\\xae\naccepted\n";
    assert_eq!(shown, told(0, report));
}

#[test]
fn a_symbol_that_could_be_read_as_two_names() {
    let stream = version_2(b"GLBX.MDP3\0\0\0\0\0\0\0", 8, &[b"ESH5", b"ESZ4\0H3"], 0);
    let report = "refused 41: A listed symbol has more than NULs after a NUL.\nplace 116 of the block\n\
        45 53 48 35 00 00 00 00 [45] 53 5a 34 00 48 33 00 00\n";
    assert_eq!(show(&[], &stream), told(1, report));
}

#[test]
fn a_file_that_cannot_be_opened_or_read() {
    assert_eq!(show(&["no such file"], b""), failed("show: no such file: No such file or directory\n"));
    assert_eq!(show(&["no\nfile"], b""), failed("show: no\\x0afile: No such file or directory\n"));
    assert_eq!(show(&["/"], b""), failed("show: /: Is a directory\n"));
    assert_eq!(show(&["--sheet", "no such file"], b""), failed("show: no such file: No such file or directory\n"));
    let mut closed = command(&[]);
    closed.stdin(std::fs::File::open("/").expect("a folder"));
    let output = closed.output().expect("scripts/show runs");
    assert_eq!(output.stderr, b"show: standard input: Is a directory\n");
    assert_eq!((output.status.code(), output.stdout.len()), (Some(2), 0));
}

#[test]
fn options_that_cannot_be_used() {
    assert_eq!(show(&["--staus"], b""), failed("show: --staus: no such option, show --help says which there are\n"));
    assert_eq!(show(&["a", "-"], b""), failed("show: -: a second stream, show takes one\n"));
    assert_eq!(show(&["-", "--sheet"], b""), failed("show: --sheet: the file's name is missing\n"));
}

#[test]
fn help() {
    let shown = show(&["--help"], b"");
    assert_eq!((shown.status, shown.err.as_str()), (0, ""));
    let calls = ["show [--sheet FILE] [FILE]\n", "show [--sheet FILE] [--width N] --tidy [FILE]\n"];
    let options = ["  --tidy ", "  --width N ", "  --sheet FILE ", "  --status ", "  --help "];
    for word in calls.into_iter().chain(options).chain(["0 accepted or tidy, 1 refused, untidy or cut short, 2 "]) {
        assert!(shown.out.contains(word), "{word}");
    }
}

#[test]
fn a_type_sheet_of_ones_own() {
    let (stream, report) = stored();
    let same = sheet("same.sheet", 519, 0);
    assert_eq!(show(&["--sheet", &same], &stream), told(0, &report.replace(MADE, GIVEN)));
    let long_header = sheet("long_header.sheet", 518, 64);
    let below = format!("refused 63: A record's base size is below the header.\n{GIVEN}");
    assert_eq!(show(&["--sheet", &long_header], &stream), told(1, &below));
    for (name, len) in [("short.sheet", 1039), ("long.sheet", 1041), ("empty.sheet", 0)] {
        let path = file(name, &vec![0; len]);
        let err = format!("show: {path}: no type sheet of 1,040 bytes could be read from it\n");
        assert_eq!(show(&["-", "--sheet", &path], &stream), failed(&err));
    }
}

#[test]
fn a_refusal_by_a_rule_tells_of_the_made_sheet() {
    let (mut stream, _) = stored();
    stream[118] = 0x4E;
    assert_eq!(show(&[], &stream), told(1, &format!("refused 62: An rtype's low byte is 4E.\n{MADE}")));
}

#[test]
fn room_for_a_days_stream() {
    let dataset = b"GLBX.MDP3\0\0\0\0\0\0\0";
    let many = vec![&b"ES.c.0"[..]; 16385];
    let shown = show(&[], &version_2(dataset, 8, &many[1..], 0));
    assert_eq!((shown.status, shown.out.matches("symbol: ES.c.0\n").count()), (0, 16384));
    let short =
        "refused 3: A table of 16,384 rows is too short.\nsymbology rows needed: 16385\nlayout rows needed: 0\n";
    assert_eq!(show(&[], &version_2(dataset, 8, &many, 0)), told(1, short));
    let least = version_2(dataset, 8, &[], 0).len();
    let full = version_2(dataset, 8, &[], 1_048_576 - least);
    assert_eq!((full.len(), show(&[], &full).status), (1_048_576, 0));
    let larger = "refused 2: The block is larger than the store of 1,048,576 bytes.\n";
    assert_eq!(show(&[], &version_2(dataset, 8, &[], 1_048_577 - least)), told(1, larger));
}

#[test]
fn a_report_that_cannot_be_written() {
    for (args, input) in [(&[][..], stored().0), (&["--tidy"], layout())] {
        let Ok(full) = std::fs::OpenOptions::new().write(true).open("/dev/full") else { return };
        let mut command = command(args);
        command.stdout(full);
        assert_eq!(run(command, &input), failed("show: standard output: No space left on device\n"));
    }
}

#[test]
fn a_tidy_layout_from_a_file_and_from_standard_input() {
    let path = file("tidy.layout", &layout());
    for args in [["--tidy", &path], [&path, "--tidy"]] {
        assert_eq!(show(&args, b""), judged(0, "tidy\n"));
    }
    for args in [&["--tidy", "-"][..], &["--tidy"]] {
        assert_eq!(show(args, &layout()), judged(0, "tidy\n"));
    }
    assert_eq!(show(&["--tidy"], &[1, 0, 0, 0, 0, 0, 0, 0]), judged(0, "tidy\n"));
}

/// What is told of the stored stream's layout after a change.
fn changed(change: fn(&mut Vec<u8>)) -> Ran {
    let mut layout = layout();
    change(&mut layout);
    show(&["--tidy"], &layout)
}

#[test]
fn each_untidy_thing_with_its_place() {
    let in_section = "refused 120: Bytes are left over in a section.\nplace 302 of the layout\n\
        00 05 76 65 6e 75 65 00 [2a] 01 00 54 00 10 00 05 4c\n";
    let longer = changed(|layout| {
        layout[4] += 1;
        layout.insert(302, 0x2a);
    });
    assert_eq!(longer, judged(1, in_section));
    let codes = "refused 121: A label's code is not above the one before it.\nplace 407 of the layout\n\
        00 43 00 03 41 73 6b 00 [42] 00 03 42 69 64 00\n";
    assert_eq!(changed(|layout| layout[400] = 0x43), judged(1, codes));
    let skipped = "refused 122: A skipped byte of an entry is not zero.\nplace 44 of the layout\n\
        00 ff ff 00 00 00 00 00 [80] 02 00 01 00 01 00 01 00\n";
    assert_eq!(changed(|layout| layout[44] = 0x80), judged(1, skipped));
    let after = "refused 123: Bytes are left over after the label defs.\nplace 414 of the layout\n\
        00 42 00 03 42 69 64 00 [07] 08\n";
    assert_eq!(changed(|layout| layout.extend([7, 8])), judged(1, after));
}

#[test]
fn a_layout_that_the_reader_refuses() {
    let cut = "refused 50: The layout is cut short.\nplace 392 of the layout\n\
        76 65 64 00 01 00 18 00 [04] 53 69 64 65 00 02 00 41\n";
    assert_eq!(changed(|layout| layout.truncate(413)), judged(1, cut));
    let empty = "refused 50: The layout is cut short.\nplace 0 of the layout\n[]\n";
    assert_eq!(changed(Vec::clear), judged(1, empty));
    assert_eq!(changed(|layout| layout[6] = 0x4E), judged(1, "refused 62: An rtype's low byte is 4E.\n"));
}

#[test]
fn a_layout_for_a_width_and_a_sheet_of_ones_own() {
    let width = |width: &str, verdict: &str| format!("{verdict}symbol width: {width}\n{MADE}");
    assert_eq!(show(&["--width", "71", "--tidy"], &layout()), told(0, &width("71", "tidy\n")));
    assert_eq!(show(&["--tidy", "--width", "0071", "-"], &layout()), told(0, &width("71", "tidy\n")));
    let other = "refused 77: A symbol field's size is not the symbol width.\n";
    for n in ["0", "8", "72", "65535"] {
        assert_eq!(show(&["--tidy", "--width", n], &layout()), told(1, &width(n, other)));
    }
    let same = sheet("same_for_layouts.sheet", 519, 0);
    assert_eq!(show(&["--sheet", &same, "--tidy"], &layout()), told(0, &format!("tidy\n{USUAL}{GIVEN}")));
    let long_header = sheet("long_header_for_layouts.sheet", 518, 64);
    let below = "refused 63: A record's base size is below the header.\nsymbol width: 71\n";
    let args = ["--sheet", &long_header, "--width", "71", "--tidy", "-"];
    assert_eq!(show(&args, &layout()), told(1, &format!("{below}{GIVEN}")));
}

#[test]
fn a_layout_that_cannot_be_read() {
    assert_eq!(show(&["--tidy", "no such file"], b""), failed("show: no such file: No such file or directory\n"));
    assert_eq!(show(&["--tidy", "/"], b""), failed("show: /: Is a directory\n"));
    let mut long = layout();
    long.resize(1_048_576, 9);
    let after = "refused 123: Bytes are left over after the label defs.\nplace 414 of the layout\n\
        00 42 00 03 42 69 64 00 [09] 09 09 09 09 09 09 09 09\n";
    assert_eq!(show(&["--tidy"], &long), judged(1, after));
    long.push(9);
    let path = file("long.layout", &long);
    let longer =
        |name: &str| failed(&format!("show: {name}: more than 1,048,576 bytes, show takes no longer layout\n"));
    assert_eq!(show(&["--tidy", &path], b""), longer(&path));
    assert_eq!(show(&["--tidy", "-"], &long), longer("standard input"));
}

#[test]
fn widths_that_cannot_be_used() {
    for word in ["65536", "18446744073709551687", "-1", "+71", "7 1", "0x47", "71.", "--tidy", ""] {
        let err = format!("show: {word}: no symbol width, which is a number from 0 to 65535\n");
        assert_eq!(show(&["--tidy", "--width", word, "-"], &layout()), failed(&err));
    }
    assert_eq!(show(&["--tidy", "-", "--width"], &layout()), failed("show: --width: the number is missing\n"));
    let alone = failed("show: --width: only --tidy takes a symbol width\n");
    assert_eq!(show(&["--width", "71"], &stored().0), alone);
    assert_eq!(show(&["-", "--width", "71", "--status"], &stored().0), alone);
}
