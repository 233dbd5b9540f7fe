//! sample FOLDER: a list of inputs with the crate's answers, for the program examples, which has no Rust beside it. The cases
//! go to FOLDER/stdin and what the program has to write for them to FOLDER/stdout, in both after what stands before the line
//! of the sample. The program's main file says what a case is. Cases of the list:
//!   s  a type sheet for the cases after it
//!   b  a block, with tables of 256 rows: the refusal, or the fields and the rows of both tables with their names
//!   l  a layout: the refusal, or its version and rows; the answer of the rules five times; the rows with their names
//!   t  a layout that is read and written: the bytes that the crate writes
//! A refusal is the crate's number; the plain program must give the same, and its place stands beside it. Only where more than NULs
//! follow a NUL of a text is the number the plain program's own, 29, 41, 42 or 43, since the crate keeps such texts.
//! Inputs that another listed difference, or a check outside the part taken, touches are left out.
use crate::{
    gen::{self, Rng, Sheet},
    of_crate::{Answer, Build, BUILDS},
    paper::{self, AFTER_NUL},
    walk::{self, Values},
};
use std::{collections::BTreeMap, io::Write, path::Path};

/// How the line of the sample begins.
const LINE: &str = "# A sample of the answers of the crate dbn 0.73.0, ";

/// How it goes on.
const MADE: &str =
    "with two sheets, the plain program's places, and its 29, 41, 42 and 43, made by oracle/make-sample: ";

/// How many inputs of each refusal, and how many accepted ones of each kind, the list has.
const REFUSED: usize = 3;
const ACCEPTED: usize = 15;
const LONGEST: usize = 300;

/// The cases, what the program has to write, and how many cases of each kind there are.
#[derive(Default)]
struct List {
    cases: Vec<u8>,
    told: Vec<u8>,
    counts: [usize; 4],
}

/// Writes the list and what the program has to write.
pub fn write(folder: &Path) -> std::io::Result<()> {
    let List { cases, told, counts } = list();
    let [sheets, blocks, layouts, written] = counts;
    let line = format!("{LINE}{MADE}{sheets} sheets, {blocks} blocks, {layouts} layouts, {written} written\n");
    println!("{line}");
    put_after(&folder.join("stdin"), &line, &cases)?;
    put_after(&folder.join("stdout"), &line, &told)
}

/// The file up to the line of the sample, then this line and what follows it.
fn put_after(file: &Path, line: &str, rest: &[u8]) -> std::io::Result<()> {
    let old = std::fs::read(file)?;
    let at = old.windows(LINE.len()).position(|part| part == LINE.as_bytes()).unwrap_or(old.len());
    std::fs::write(file, [&old[..at], line.as_bytes(), rest].concat())
}

fn list() -> List {
    let mut out = List::default();
    for (build, sheet) in [gen::plain_sheet(), gen::other_sheet()].into_iter().enumerate() {
        for one in &BUILDS[build] {
            (one.install)(&|id| (Some(sheet.0[id as usize]).filter(|&n| n > 0), sheet.uses_labels(id)));
        }
        let places = sheet.0.iter().enumerate().filter(|(_, &number)| number > 0);
        let pairs: Vec<String> = places.map(|(place, &number)| number16(place as u16) + &number16(number)).collect();
        out.put(0, format!("s {}", pairs.join(" ")), &[]);
        cases(&mut out, build, &sheet);
    }
    out
}

impl List {
    fn put(&mut self, kind: usize, case: String, told: &[u8]) {
        writeln!(self.cases, "{case}").expect("room");
        self.told.extend(told);
        self.counts[kind] += 1;
    }
}

fn hex(bytes: &[u8]) -> String {
    bytes.iter().map(|byte| format!("{byte:02x}")).collect()
}

fn number16(number: u16) -> String {
    hex(&number.to_le_bytes())
}

/// Rows as the program writes them: the numbers, and the name, which a field has not.
fn tell_rows<const N: usize>(out: &mut Vec<u8>, rows: &[[u32; N]], text: &[u8]) {
    for row in rows {
        let numbers: Vec<String> = row.iter().map(u32::to_string).collect();
        write!(out, "  {} : ", numbers.join(" ")).expect("room");
        if row[0] != 11 {
            out.extend(&text[row[1] as usize..][..row[2] as usize]);
        }
        out.push(b'\n');
    }
}

/// The fields and rows of an accepted block as the program writes them.
fn tell_block(values: &Values, block: &[u8]) -> Vec<u8> {
    fn or_none<T: ToString>(value: Option<T>) -> String {
        value.map_or("-".into(), |value| value.to_string())
    }
    let v = values;
    let mut out = format!("read: dataset {} schema {} start {}", v.dataset_len, or_none(v.schema), v.start);
    out += &format!(" end {} limit {}", or_none(v.end), or_none(v.limit));
    out += &format!(" stype_in {} stype_out {}", or_none(v.stype_in), v.stype_out);
    out += if v.ts_out { " ts_out\n" } else { "\n" };
    out += &format!("  width {} layout version {}", v.width, v.layout_version);
    out += &format!(" symbology rows {} layout rows {}\n", v.symbology.len(), v.layout.len());
    let mut out = out.into_bytes();
    tell_rows(&mut out, &v.symbology, block);
    tell_rows(&mut out, &v.layout, &block[104.min(block.len())..]);
    out
}

/// The number of an answer, 0 for accepted.
fn number(answer: &Answer) -> Option<u32> {
    match answer {
        Answer::Refused(number, _) => Some(*number),
        Answer::Accepted(_) => Some(0),
        _ => None,
    }
}

/// A number as the program writes it, with the place of the plain program, whose number is the same; 0 for accepted.
fn with_place(number: u32, plain: paper::Verdict) -> String {
    let (same, place) = plain.err().unwrap_or((0, None));
    assert_eq!(same, number, "the plain program's number beside the one to be told");
    place.map_or(number.to_string(), |place| format!("{number} at {place}"))
}

fn cases(out: &mut List, build: usize, sheet: &Sheet) {
    let [plain, _, align] = &BUILDS[build];
    let mut r = Rng::new(2026 + build as u64);
    let mut seen: BTreeMap<(u8, u32), usize> = BTreeMap::new();
    let mut wanted = |kind: u8, number: u32, length: usize| {
        let most = if number == 0 { ACCEPTED } else { REFUSED };
        let count = seen.entry((kind, number)).or_default();
        let take = *count < most && length <= LONGEST;
        *count += take as usize;
        take
    };
    for i in 0..60_000u32 {
        let version = 1 + (i % 4) as u8;
        let mut stream = gen::stream(&mut r, sheet, version);
        if i % 3 > 0 {
            stream = gen::damage(&mut r, &stream);
        }
        if stream.len() >= 108 && stream[..3] == *b"DBN" && (1..=4).contains(&stream[3]) {
            gen::match_length(&mut stream);
            block_case(out, &stream, sheet, &mut wanted, plain, align);
        }
        let width = r.pick(&[0u16, 3, 71]);
        let (records, fields) = (r.below(3), r.below(6));
        let mut tree = gen::layout(&mut r, sheet, width as usize, records, fields);
        if i % 3 > 0 {
            gen::bend(&mut r, sheet, &mut tree);
        }
        let layout = tree.bytes(&mut r);
        layout_case(out, &layout, width, sheet, &mut wanted, plain, align);
    }
}

fn block_case(
    out: &mut List,
    stream: &[u8],
    sheet: &Sheet,
    wanted: &mut impl FnMut(u8, u32, usize) -> bool,
    plain: &Build,
    align: &Build,
) {
    let (version, block) = (stream[3], &stream[8..]);
    let verdict = paper::block(version, block, &sheet.0);
    let answer = match verdict {
        // The crate would accept it, or refuse it by a rule that comes later.
        Err((number, _)) if AFTER_NUL.contains(&number) => Answer::Refused(number, None),
        _ => {
            let answer = (plain.feed)(stream, &[]).remove(0);
            if answer != (align.feed)(stream, &[])[0] {
                return;
            }
            answer
        }
    };
    let Some(number) = number(&answer) else { return };
    if !wanted(1, number, block.len()) {
        return;
    }
    let told = match &answer {
        Answer::Accepted(values) => tell_block(values, block),
        _ => format!("refused {}\n", with_place(number, verdict)).into_bytes(),
    };
    out.put(1, format!("b {version:02x} {} {}", number16(256), hex(block)), &told);
}

/// What the program writes for a layout: a rule refuses one that can be read.
fn tell_layout(layout: &[u8], number: u32, plain: paper::Verdict) -> Vec<u8> {
    let told = with_place(number, plain);
    if (1..60).contains(&number) {
        return format!("refused {told}\n  rules {told} {told} {told} 0 0\n").into_bytes();
    }
    let (version, rows) = walk::layout(layout);
    let mut out = format!("read {version} {}\n  rules", rows.len());
    out += &format!(" {told}").repeat(5);
    let mut out = (out + "\n").into_bytes();
    tell_rows(&mut out, &rows, layout);
    out
}

fn layout_case(
    out: &mut List,
    layout: &[u8],
    width: u16,
    sheet: &Sheet,
    wanted: &mut impl FnMut(u8, u32, usize) -> bool,
    plain: &Build,
    align: &Build,
) {
    let answer = (plain.layout)(layout, width);
    if answer != (align.layout)(layout, width) {
        return;
    }
    let Some(number) = number(&answer) else { return };
    let case = format!("{} {}", number16(width), hex(layout));
    if wanted(2, number, layout.len()) {
        let plain = paper::layout(layout, width as usize, &sheet.0);
        out.put(2, format!("l {case}"), &tell_layout(layout, number, plain));
    }
    let Answer::Accepted(values) = &answer else { return };
    let rising = values.layout.windows(2).all(|two| two[0][0] != 15 || two[1][0] != 15 || two[0][3] < two[1][3]);
    if rising && wanted(3, 0, layout.len()) {
        let Ok(written) = (plain.rewrite)(layout, width) else { return };
        assert_eq!(walk::layout(&written).1.len(), values.layout.len());
        out.put(3, format!("t {case}"), format!("written {} same\n", hex(&written)).as_bytes());
    }
}
