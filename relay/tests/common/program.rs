//! A program as its script runs it: what it writes, where, and the status it ends with; and the inputs that such tests share.
use std::io::{ErrorKind, Write};
use std::path::{Path, PathBuf};
use std::process::{Command, Stdio};

/// What a run wrote, and how it ended.
#[derive(Debug, PartialEq)]
pub struct Ran {
    pub status: i32,
    pub out: String,
    pub err: String,
}

/// A file of the repository.
pub fn at(path: &str) -> PathBuf {
    Path::new(env!("CARGO_MANIFEST_DIR")).join("..").join(path)
}

/// A run of this script, with pipes.
pub fn command(script: &str, args: &[&str]) -> Command {
    let mut command = Command::new(at(script));
    command.args(args).stdin(Stdio::piped()).stdout(Stdio::piped()).stderr(Stdio::piped());
    command
}

/// Runs a program on standard input.
pub fn run(command: Command, input: &[u8]) -> Ran {
    run_in_pieces(command, input, usize::MAX)
}

/// Runs a program on standard input, which it gets in pieces of this length. It need not read all of it.
pub fn run_in_pieces(mut command: Command, input: &[u8], length: usize) -> Ran {
    let mut child = command.spawn().expect("the script runs");
    let mut pipe = child.stdin.take().expect("a pipe");
    for piece in input.chunks(length) {
        match pipe.write_all(piece) {
            Err(e) if e.kind() == ErrorKind::BrokenPipe => break,
            written => written.expect("standard input"),
        }
    }
    drop(pipe);
    let output = child.wait_with_output().expect("the program ends");
    let text = |bytes| String::from_utf8(bytes).expect("the program writes ASCII");
    Ran { status: output.status.code().expect("no signal"), out: text(output.stdout), err: text(output.stderr) }
}

/// What a run without errors comes to.
pub fn told(status: i32, out: &str) -> Ran {
    Ran { status, out: out.to_string(), err: String::new() }
}

/// What a run that cannot be done comes to.
pub fn failed(err: &str) -> Ran {
    Ran { status: 2, out: String::new(), err: err.to_string() }
}

/// A version 2 stream of symbols of this width, with a dataset, and bytes after the symbology.
pub fn version_2(dataset: &[u8; 16], width: u16, symbols: &[&[u8]], after: usize) -> Vec<u8> {
    let mut block = dataset.to_vec();
    block.extend(65535u16.to_le_bytes());
    block.extend([0; 24]);
    block.extend([255, 12, 0]);
    block.extend(width.to_le_bytes());
    block.resize(104, 0);
    block.extend((symbols.len() as u32).to_le_bytes());
    for symbol in symbols {
        let end = block.len() + usize::from(width);
        block.extend(*symbol);
        block.resize(end, 0);
    }
    block.extend(vec![0; 12 + after]);
    super::stream_of(2, &block)
}

/// A file of this test's own, named for what it is.
pub fn file(name: &str, bytes: &[u8]) -> String {
    let path = Path::new(env!("CARGO_TARGET_TMPDIR")).join(name);
    std::fs::write(&path, bytes).expect("a file for the test");
    path.to_str().expect("a path in UTF-8").to_string()
}

/// The sheet that the programs have made, as a file has it, with one number changed.
pub fn sheet(name: &str, at: usize, to: u16) -> String {
    let mut sheet = [0u16; 520];
    for (id, size) in [(1, 1), (2, 2), (3, 4), (4, 8), (5, 8), (9, 1), (10, 1), (266, 1)] {
        sheet[id] = size;
    }
    sheet[512..519].copy_from_slice(&[8, 7, 5, 9, 64, 65535, 16]);
    sheet[at] = to;
    file(name, &sheet.iter().flat_map(|n| n.to_le_bytes()).collect::<Vec<u8>>())
}
