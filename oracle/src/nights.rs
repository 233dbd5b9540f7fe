//! Nights: starts put end on end go to the program morning, as `scripts/morning` runs it, and its report must be the plain program's
//! (`paper_night.rs`), line by line.
use crate::{
    aimed, compare,
    gen::{self, LabelTree, LayoutTree, Rng, Sheet},
    paper_night::{self, Outcome},
    tally::{least, often},
};
use std::{
    collections::BTreeMap,
    io::{ErrorKind, Write},
    path::{Path, PathBuf},
    process::{Command, Stdio},
};

/// Starts of a large night, and for how many inputs of a run there is one; and for how many there is a small one, of up to nine.
const LARGE: usize = 2_000;
const INPUTS_OF_LARGE: u64 = 2_000;
const INPUTS_OF_SMALL: u64 = 100;

/// What is to come often enough, besides the other numbers.
const ANSWERS: [&str; 7] = ["accepted", "cut", "2", "3", "10", "11", "12"];

/// Counts of a run.
#[derive(Default)]
pub struct Tally {
    inputs: u64,
    nights: u64,
    answers: BTreeMap<Outcome, u64>,
    unexplained: u64,
}

/// A file of the repository.
fn at(path: &str) -> PathBuf {
    Path::new(env!("CARGO_MANIFEST_DIR")).join("..").join(path)
}

/// Compares the nights of a run of so many inputs from `seed`.
pub fn run(inputs: u64, seed: u64) -> Tally {
    let mut tally = Tally { inputs, ..Tally::default() };
    if !at("crates/morning/out/morning").is_file() {
        eprintln!("nights: crates/morning/out/morning is missing: run 'scripts/build-program morning' first");
        tally.unexplained = 1;
        return tally;
    }
    let mut r = Rng::new(seed ^ 0x419D);
    for _ in 0..inputs.div_ceil(INPUTS_OF_LARGE) {
        night(&mut r, LARGE, &mut tally);
    }
    for _ in 0..inputs.div_ceil(INPUTS_OF_SMALL) {
        let starts = r.below(10);
        night(&mut r, starts, &mut tally);
    }
    tally
}

/// One night with a sheet of its own.
fn night(r: &mut Rng, starts: usize, tally: &mut Tally) {
    let sheet = match r.below(4) {
        0 => Sheet::random(r),
        1 => gen::other_sheet(),
        _ => gen::plain_sheet(),
    };
    let mut bytes: Vec<u8> = (0..starts).flat_map(|_| start(r, &sheet)).collect();
    bytes.extend(end(r, &sheet));
    let history = paper_night::history(&bytes, &sheet.0);
    let wanted = paper_night::report(&history);
    let got = morning(Rng::new(r.next()), &bytes, &sheet).unwrap_or_else(|fault| fault);
    tally.nights += 1;
    match wanted.lines().zip(got.lines().chain(std::iter::repeat("nothing"))).find(|(wanted, got)| wanted != got) {
        None if wanted == got => history.iter().for_each(|&outcome| tally.add(outcome)),
        line => {
            let (wanted, got) = line.unwrap_or(("the end", "more"));
            eprintln!(
                "unexplained, night {} of this seed, {starts} starts: paper '{wanted}', here '{got}'",
                tally.nights
            );
            tally.unexplained += 1;
        }
    }
}

/// What morning writes of a night, given in pieces; or how it failed. How many pieces it takes hangs on when it ends, so they have random numbers of
/// their own.
fn morning(mut r: Rng, night: &[u8], sheet: &Sheet) -> Result<String, String> {
    let path = std::env::temp_dir().join(format!("oracle-{}.sheet", std::process::id()));
    std::fs::write(&path, sheet.0.map(u16::to_le_bytes).concat()).map_err(|e| e.to_string())?;
    let mut command = Command::new(at("scripts/morning"));
    command.arg("--sheet").arg(&path).stdin(Stdio::piped()).stdout(Stdio::piped()).stderr(Stdio::piped());
    let mut child = command.spawn().map_err(|e| e.to_string())?;
    let mut pipe = child.stdin.take().expect("a pipe");
    let mut rest = night;
    while !rest.is_empty() {
        let (piece, after) = rest.split_at(rest.len().min(1 + r.below(9_000)));
        match pipe.write_all(piece) {
            // The program need not read all of it.
            Err(e) if e.kind() == ErrorKind::BrokenPipe => break,
            written => written.map_err(|e| e.to_string())?,
        }
        rest = after;
    }
    drop(pipe);
    let output = child.wait_with_output().map_err(|e| e.to_string())?;
    std::fs::remove_file(&path).map_err(|e| e.to_string())?;
    match (output.status.code(), output.stderr.is_empty()) {
        (Some(0), true) => String::from_utf8(output.stdout).map_err(|e| e.to_string()),
        (status, _) => Err(format!("status {status:?}: {}", String::from_utf8_lossy(&output.stderr))),
    }
}

/// A start, whole, damaged or aimed at a number that is seldom given, whose prelude is sound and tells its true length.
fn start(r: &mut Rng, sheet: &Sheet) -> Vec<u8> {
    let mut bytes = if r.one_in(4) { aimed::stream(r, sheet) } else { compare::some_stream(r, sheet) };
    bytes.resize(bytes.len().max(108), 0);
    bytes[..3].copy_from_slice(b"DBN");
    if !(1..=4).contains(&bytes[3]) {
        bytes[3] = 1 + r.below(4) as u8;
    }
    gen::match_length(&mut bytes);
    bytes
}

/// What ends a night: nothing more, or a start that is cut; or a prelude that is refused, a block beyond the store or about as many rows as a table
/// holds, with another start after it.
fn end(r: &mut Rng, sheet: &Sheet) -> Vec<u8> {
    let mut bytes = start(r, sheet);
    let claim = |length: usize| (length as u32).to_le_bytes();
    match r.below(8) {
        0 => return Vec::new(),
        1 => {
            bytes.truncate(1 + r.below(bytes.len() - 1));
            return bytes;
        }
        2 => bytes[r.below(3)] ^= 1 << r.below(8),
        3 => bytes[3] = r.pick(&[0, 5, 6, 255]),
        4 => bytes[4..8].copy_from_slice(&claim(r.below(100))),
        5 => bytes[4..8].copy_from_slice(&claim(65_529 + r.below(1 << 20))),
        6 => bytes = many_symbols(r),
        _ => bytes = many_labels(r),
    }
    bytes.extend(start(r, sheet));
    bytes
}

/// As many rows as a table holds, one less or more, or many more.
fn about_a_table(r: &mut Rng) -> usize {
    r.pick(&[1_023, 1_024, 1_025, 1_025, 2_000])
}

/// A start with so many symbols.
fn many_symbols(r: &mut Rng) -> Vec<u8> {
    let (version, rows) = (1 + r.below(3) as u8, about_a_table(r));
    let head = gen::head(r, version, 3);
    let symbology = gen::symbology(r, head.width as usize, [rows, 0, 0], &[]);
    let block = gen::block(r, &head, &[], &symbology, 0);
    gen::stream_of(version, &block)
}

/// A version 4 start whose layout is one label def, with labels up to so many rows.
fn many_labels(r: &mut Rng) -> Vec<u8> {
    let labels = (1..about_a_table(r) as u16).map(|code| (code, b"A".to_vec())).collect();
    let tree = LayoutTree { labels: vec![LabelTree { name: b"Side".to_vec(), labels }], ..LayoutTree::default() };
    let head = gen::head(r, 4, 3);
    let (layout, symbology) = (tree.bytes(r), gen::symbology(r, 3, [1; 3], &[1]));
    let block = gen::block(r, &head, &layout, &symbology, 0);
    gen::stream_of(4, &block)
}

impl Tally {
    fn add(&mut self, outcome: Outcome) {
        let kind = if let Outcome::Accepted(_) = outcome { Outcome::Accepted(0) } else { outcome };
        *self.answers.entry(kind).or_default() += 1;
    }

    /// Prints the counts. True where nothing is unexplained and every answer came often enough.
    pub fn print(&self) -> bool {
        println!("nights {}, starts counted in them {}", self.nights, self.answers.values().sum::<u64>());
        let name = |outcome: &Outcome| match outcome {
            Outcome::Accepted(_) => "accepted".to_string(),
            Outcome::Refused(number) => number.to_string(),
            Outcome::Cut => "cut".to_string(),
        };
        let counts: BTreeMap<String, u64> =
            self.answers.iter().map(|(outcome, &count)| (name(outcome), count)).collect();
        let answers: Vec<String> = self.answers.iter().map(|(outcome, n)| format!("{}:{n}", name(outcome))).collect();
        println!("  answers {}", answers.join(" "));
        let enough = often(&ANSWERS, |answer| counts.get(answer).copied().unwrap_or(0), least(self.inputs));
        println!("  unexplained {}", self.unexplained);
        enough && self.unexplained == 0
    }
}
