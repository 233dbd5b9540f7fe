//! The comparison: generated, damaged and cut inputs, the C functions' answers beside the crate's.
use crate::{
    after_nul, aimed, calls, columns,
    gen::{self, Rng, Sheet},
    house,
    of_crate::{Answer, Build, BUILDS},
    ours,
    paper::{self, Stage},
    tally::{told, Beside, Kind, Tally},
    tidy,
    walk::ROW,
    written,
};

/// A made sheet: which of the two builds it is for, its lent form, and which sizes of 0 the crate is told as `Some(0)`.
pub struct Made {
    pub build: usize,
    pub sheet: Sheet,
    zeros: bool,
}

impl Made {
    fn new(r: &mut Rng) -> Self {
        let build = r.below(2);
        let mut sheet = if build == 0 { gen::plain_sheet() } else { gen::other_sheet() };
        let [padding, struct_, symbol] = [sheet.padding_id(), sheet.struct_id(), sheet.symbol_id()].map(usize::from);
        match r.below(8) {
            0 => sheet.0[padding] = r.pick(&[2, 4, 8]),
            1 => (sheet.0[struct_], sheet.0[symbol]) = (4, 2),
            2 => {
                for id in [5, 6, 100, 101] {
                    sheet.0[id] = r.pick(&[0, 3]);
                }
            }
            3 => sheet.0[..256].fill(0),
            4 => {
                for id in 0..256 {
                    sheet.0[id] = r.pick(&[0, 0, 1, 2, 4, 8, 3, 16]);
                    sheet.0[256 + id] = r.below(2) as u16;
                }
            }
            _ => {}
        }
        Self { build, sheet, zeros: r.one_in(3) }
    }

    fn install(&self) {
        for build in &BUILDS[self.build] {
            (build.install)(&|id| {
                let size = self.sheet.0[id as usize];
                let size = Some(size).filter(|&size| size > 0 || self.zeros);
                (size, self.sheet.uses_labels(id))
            });
        }
    }
}

/// Compares `inputs` inputs from `seed`.
pub fn run(inputs: u64, seed: u64) -> Tally {
    let mut tally = Tally::default();
    let (mut r, mut of_tidy) = (Rng::new(seed ^ 0x0DB0_57A7), Rng::new(seed ^ 0x71D1));
    let mut of_house = Rng::new(seed ^ 0x40E5);
    let mut made = Made::new(&mut r);
    for i in 0..inputs {
        if i % 50 == 0 {
            made = Made::new(&mut r);
            made.install();
        }
        tidy::made(&mut of_tidy, &made, &mut tally);
        house::made(&mut of_house, &made.sheet, &mut tally);
        // Tables of more rows than can be counted take long, so they come seldom.
        if i % 150 == 0 {
            long_rows(&mut r, &made.sheet, &mut tally);
            continue;
        }
        match r.below(16) {
            0..=3 => stream(&mut r, &made, &mut tally),
            4 => block(&mut r, &made, &mut tally),
            5..=7 => layout(&mut r, &made, &mut tally),
            8 => written(&mut r, &made, &mut tally),
            9 => rows(&mut r, &made.sheet, &mut tally),
            10 => lent(&mut r, &made.sheet, &mut tally),
            11 => any_sheet(&mut r, &mut tally),
            12 => written::read_again(&mut r, &made, &mut tally),
            13 => written::of_the_encoder(&mut r, &made, &mut tally),
            14 => written::any(&mut r, &made.sheet, &mut tally),
            _ => aimed(&mut r, &made, &mut tally),
        }
    }
    tally
}

/// Ours beside the plain program: what is needed, what is accepted, and the number and place of every refusal.
fn beside_paper(ours: &[Answer], paper: &[Stage]) -> Kind {
    let stage = |answer: &Answer| match answer {
        Answer::Needs(n) => Some(Stage::Needs(*n as usize)),
        Answer::Refused(number, place) => Some(Stage::Refused((*number, *place))),
        Answer::Accepted(_) => Some(Stage::Done),
        Answer::CheckSize | Answer::Odd(_) => None,
    };
    if ours.iter().map(stage).eq(paper.iter().map(|&stage| Some(stage))) {
        return Kind::Agreed;
    }
    let here: Vec<_> = ours.iter().map(|answer| stage(answer).map_or(told(answer), |s| format!("{s:?}"))).collect();
    Kind::Unexplained(format!("paper {paper:?}, here {}", here.join(", ")))
}

/// Ours beside the plain program, then beside the crate, unless more than NULs follow a NUL.
fn judge(ours: &[Answer], paper: &[Stage], builds: &[Build; 3], ask: impl Fn(&Build) -> Vec<Answer>) -> (Beside, Kind) {
    let beside = after_nul::beside(paper);
    match beside_paper(ours, paper) {
        Kind::Agreed if beside == Beside::Crate => (beside, beside_crate(&without_places(ours), builds, ask)),
        kind => (beside, kind),
    }
}

/// The answers as the crate can give them.
fn without_places(answers: &[Answer]) -> Vec<Answer> {
    let bare = |answer: &Answer| match answer {
        Answer::Refused(number, _) => Answer::Refused(*number, None),
        answer => answer.clone(),
    };
    answers.iter().map(bare).collect()
}

/// The verdict of the plain program on a block or a layout, as the end of a feed.
fn stage_of(verdict: paper::Verdict) -> [Stage; 1] {
    [verdict.map_or_else(Stage::Refused, |()| Stage::Done)]
}

/// Ours beside the three builds: the crate unchanged, then what explains a difference.
fn beside_crate(ours: &[Answer], builds: &[Build; 3], ask: impl Fn(&Build) -> Vec<Answer>) -> Kind {
    let whole = ask(&builds[0]);
    let last = |answers: &[Answer]| answers.last().map_or("none".into(), told);
    if ours == whole {
        return match ours.last() {
            Some(Answer::Accepted(values)) if !rising(&values.layout) => {
                Kind::Listed("label order: rows as stored".into())
            }
            Some(Answer::Odd(text)) => Kind::Unexplained(text.clone()),
            _ => Kind::Agreed,
        };
    }
    if whole.last() == Some(&Answer::CheckSize) && ours == ask(&builds[1]) {
        return Kind::Apart("check_size");
    }
    if ours == ask(&builds[2]) {
        return Kind::Listed(format!("alignment in structs: crate {}", last(&whole)));
    }
    Kind::Unexplained(format!("crate {}, here {}", last(&whole), last(ours)))
}

/// Whether the label codes of every def rise.
pub fn rising(rows: &[[u32; 9]]) -> bool {
    rows.windows(2).all(|two| two[0][0] != 15 || two[1][0] != 15 || two[0][3] < two[1][3])
}

pub fn hex(bytes: &[u8]) -> String {
    bytes.iter().map(|byte| format!("{byte:02x}")).collect()
}

/// Says which input it was.
pub fn with_input(kind: Kind, input: impl Fn() -> String) -> Kind {
    match kind {
        Kind::Unexplained(text) => Kind::Unexplained(format!("{text}; {}", input())),
        kind => kind,
    }
}

/// A stream start, damaged or not, cut at random places.
fn stream(r: &mut Rng, made: &Made, tally: &mut Tally) {
    let bytes = some_stream(r, &made.sheet);
    cut_stream(r, made, tally, &bytes, "streams");
}

/// A stream start or a layout aimed at a number that is seldom given.
fn aimed(r: &mut Rng, made: &Made, tally: &mut Tally) {
    if r.one_in(2) {
        let bytes = aimed::stream(r, &made.sheet);
        cut_stream(r, made, tally, &bytes, "aimed streams");
    } else {
        let (bytes, width) = aimed::layout(r, &made.sheet);
        one_layout(r, made, tally, &bytes, width, "aimed layouts");
    }
}

pub fn cut_stream(r: &mut Rng, made: &Made, tally: &mut Tally, bytes: &[u8], what: &'static str) {
    let mut cuts: Vec<usize> = (0..r.pick(&[0, 0, 1, 2, 3, 5])).map(|_| r.below(bytes.len() + 1)).collect();
    cuts.sort();
    let answers = ours::feed(r, bytes, &cuts, &made.sheet);
    let paper = paper::fed(bytes, &cuts, &made.sheet.0);
    let (beside, kind) = judge(&answers, &paper, &BUILDS[made.build], |build| (build.feed)(bytes, &cuts));
    let kind = with_input(kind, || format!("stream {} cut at {cuts:?}", hex(bytes)));
    tally.add(beside, what, answers.last().unwrap(), kind);
}

/// A block given whole with a version. The crate is asked with a prelude before it; it has no word for 11 and 13 here.
fn block(r: &mut Rng, made: &Made, tally: &mut Tally) {
    let stream = some_stream(r, &made.sheet);
    let mut block = stream.get(8..).unwrap_or(&[]).to_vec();
    let version = if r.one_in(10) { r.byte() % 8 } else { stream.get(3).copied().unwrap_or(1) };
    if r.one_in(20) {
        block.truncate(r.below(130));
    }
    let answer = [ours::block(r, version, &block, &made.sheet)];
    let paper = stage_of(paper::block(version, &block, &made.sheet.0));
    let (beside, kind) = if !(1..=4).contains(&version) || block.len() < 100 {
        (Beside::Paper, beside_paper(&answer, &paper))
    } else {
        let stream = gen::stream_of(version, &block);
        judge(&answer, &paper, &BUILDS[made.build], |build| (build.feed)(&stream, &[]))
    };
    let kind = with_input(kind, || format!("block {} version {version}", hex(&block)));
    tally.add(beside, "blocks", &answer[0], kind);
}

/// A stream start whose declared length a machine can hold.
pub fn some_stream(r: &mut Rng, sheet: &Sheet) -> Vec<u8> {
    let version = if r.one_in(2) { 4 } else { 1 + r.below(3) as u8 };
    let mut bytes = gen::stream(r, sheet, version);
    for _ in 0..r.pick(&[0, 1, 1, 1, 2]) {
        bytes = gen::damage(r, &bytes);
    }
    if bytes.len() >= 8 {
        bytes[7] = 0;
        bytes[6] &= 15;
    }
    bytes
}

fn some_layout(r: &mut Rng, sheet: &Sheet) -> (Vec<u8>, u16) {
    gen::some_layout(r, sheet, &[0, 0, 1, 1, 2])
}

fn layout(r: &mut Rng, made: &Made, tally: &mut Tally) {
    let (bytes, width) = some_layout(r, &made.sheet);
    one_layout(r, made, tally, &bytes, width, "layouts");
}

fn one_layout(r: &mut Rng, made: &Made, tally: &mut Tally, bytes: &[u8], width: u16, what: &'static str) {
    let answer = [ours::layout(r, bytes, width, &made.sheet)];
    let paper = stage_of(paper::layout(bytes, width as usize, &made.sheet.0));
    let (beside, kind) = judge(&answer, &paper, &BUILDS[made.build], |build| vec![(build.layout)(bytes, width)]);
    let kind = with_input(kind, || format!("layout {} width {width}", hex(bytes)));
    tally.add(beside, what, &answer[0], kind);
    tidy::asked(&made.sheet, Some(made.build), tally, bytes, width);
}

/// An accepted layout through both writers, its names in a text area of their own: the same bytes, which the crate reads back.
fn written(r: &mut Rng, made: &Made, tally: &mut Tally) {
    let width = r.pick(&[0u16, 3, 8, 71]);
    let (records, fields) = (r.below(4), r.below(9));
    let bytes = gen::layout(r, &made.sheet, width as usize, records, fields).bytes(r);
    tidy::asked(&made.sheet, Some(made.build), tally, &bytes, width);
    let answer = ours::layout(r, &bytes, width, &made.sheet);
    let Answer::Accepted(values) = &answer else {
        let (build, paper) = (&BUILDS[made.build], stage_of(paper::layout(&bytes, width as usize, &made.sheet.0)));
        let ask = |build: &Build| vec![(build.layout)(&bytes, width)];
        let (beside, kind) = judge(std::slice::from_ref(&answer), &paper, build, ask);
        let kind = with_input(kind, || format!("layout {} width {width}", hex(&bytes)));
        tally.add(beside, "layouts", &answer, kind);
        return;
    };
    // The build with document 01's alignment reads whatever is read here.
    let build = &BUILDS[made.build][2];
    let (rows, text) = moved(r, &values.layout, &bytes);
    let kind = match (rising(&values.layout), (build.rewrite)(&bytes, width)) {
        (_, Err(text)) => Kind::Unexplained(format!("the crate does not write: {text}")),
        (true, Ok(theirs)) => same_bytes(r, made, &rows, &text, values.layout_version, width, &theirs, &bytes),
        (false, Ok(theirs)) => {
            let refused = ours::write(r, &rows, &text, values.layout_version, width, &made.sheet, bytes.len());
            let sorted = in_order(&rows);
            let same = same_bytes(r, made, &sorted, &text, values.layout_version, width, &theirs, &bytes);
            match (refused, same) {
                (Ok(Err(95)), Kind::Agreed) => Kind::Listed("label order: the writer gives 95".into()),
                (refused, same) => Kind::Unexplained(format!("labels not rising: {refused:?}, sorted {same:?}")),
            }
        }
    };
    tally.add(Beside::Crate, "written", &answer, with_input(kind, || format!("layout {} width {width}", hex(&bytes))));
}

#[allow(clippy::too_many_arguments)]
fn same_bytes(
    r: &mut Rng,
    made: &Made,
    rows: &[u32],
    text: &[u8],
    version: u16,
    width: u16,
    theirs: &[u8],
    from: &[u8],
) -> Kind {
    let room = theirs.len() + r.below(5);
    match ours::write(r, rows, text, version, width, &made.sheet, room) {
        Ok(Ok(ours)) if ours == theirs => {}
        other => return Kind::Unexplained(format!("crate writes {}, here {other:?}", hex(theirs))),
    }
    if !theirs.is_empty() {
        let short = ours::write(r, rows, text, version, width, &made.sheet, theirs.len() - 1);
        if short != Ok(Err(96)) {
            return Kind::Unexplained(format!("an output one byte short: {short:?}"));
        }
    }
    if (BUILDS[made.build][2].same)(theirs, from, width) {
        Kind::Agreed
    } else {
        Kind::Unexplained("the crate reads something else back".into())
    }
}

/// The rows with their names in a new text area, in another order, with gaps.
fn moved(r: &mut Rng, rows: &[[u32; 9]], bytes: &[u8]) -> (Vec<u32>, Vec<u8>) {
    let mut text: Vec<u8> = (0..r.below(6)).map(|_| r.byte()).collect();
    let mut rows = rows.to_vec();
    let forwards = r.one_in(2);
    for i in 0..rows.len() {
        let last = rows.len() - 1;
        let row = &mut rows[if forwards { i } else { last - i }];
        if row[0] != 11 {
            let name = &bytes[row[1] as usize..(row[1] + row[2]) as usize];
            row[1] = text.len() as u32;
            text.extend(name);
            if r.one_in(4) {
                text.push(r.byte());
            }
        }
    }
    (rows.concat(), text)
}

/// The rows with the labels of each def in the order of their codes.
fn in_order(rows: &[u32]) -> Vec<u32> {
    let mut rows: Vec<&[u32]> = rows.chunks(9).collect();
    let mut i = 0;
    while i < rows.len() {
        let count = if rows[i][0] == 14 { rows[i][3] as usize } else { 0 };
        rows[i + 1..i + 1 + count].sort_by_key(|row| row[3]);
        i += 1 + count;
    }
    rows.concat()
}

/// Rows of any kind given to the writer, held to the plain program.
fn rows(r: &mut Rng, sheet: &Sheet, tally: &mut Tally) {
    let width = r.pick(&[0u16, 3, 8, 71]);
    let (records, fields) = (r.below(4), r.below(7));
    let mut tree = gen::layout(r, sheet, width as usize, records, fields);
    if r.one_in(2) {
        gen::bend(r, sheet, &mut tree);
    }
    tree.fill = false;
    let mut text = tree.bytes(r);
    let Ok(walked) = std::panic::catch_unwind(|| crate::walk::layout(&text).1) else { return };
    let mut rows: Vec<u32> = walked.concat();
    text.extend([0, 0xFF, b'a']);
    if r.one_in(3) {
        text.extend(std::iter::repeat_n(b'x', 300));
    }
    for _ in 0..r.pick(&[0, 1, 1, 2]) {
        bend_rows(r, &mut rows, text.len());
    }
    write_rows(r, sheet, tally, &rows, &text, width, "rows");
}

/// Rows of sections and tables that are too long, held to the plain program.
fn long_rows(r: &mut Rng, sheet: &Sheet, tally: &mut Tally) {
    let (rows, text) = aimed::rows(r);
    write_rows(r, sheet, tally, &rows, &text, 8, "long rows");
}

fn write_rows(
    r: &mut Rng,
    sheet: &Sheet,
    tally: &mut Tally,
    rows: &[u32],
    text: &[u8],
    width: u16,
    what: &'static str,
) {
    let version = r.next() as u16;
    let wanted = paper::write(rows, text, version, width as usize, &sheet.0);
    let write = |r: &mut Rng, room| ours::write(r, rows, text, version, width, sheet, room);
    writer_beside_paper(r, tally, what, wanted, 96, write, || {
        format!("rows {rows:?} text {} width {width}", hex(text))
    });
}

/// What a writer gives beside what the plain program would write, with an output that is sometimes too short, which `short` refuses.
pub fn writer_beside_paper(
    r: &mut Rng,
    tally: &mut Tally,
    what: &'static str,
    wanted: Result<Vec<u8>, u32>,
    short: u32,
    write: impl FnOnce(&mut Rng, usize) -> Result<Result<Vec<u8>, u32>, String>,
    input: impl FnOnce() -> String,
) {
    let length = wanted.as_ref().map_or(200, Vec::len);
    let room = if r.one_in(6) { r.below(length + 1) } else { length + r.below(9) };
    let wanted = wanted.and_then(|bytes| if bytes.len() > room { Err(short) } else { Ok(bytes) });
    let got = write(r, room);
    let answer = match &wanted {
        Ok(_) => Answer::Accepted(Box::default()),
        Err(number) => Answer::Refused(*number, None),
    };
    let kind = if got == Ok(wanted.clone()) {
        Kind::Agreed
    } else {
        Kind::Unexplained(format!("paper {wanted:?}, here {got:?}; {}, an output of {room} bytes", input()))
    };
    tally.add(Beside::Paper, what, &answer, kind);
}

fn bend_rows(r: &mut Rng, rows: &mut Vec<u32>, text: usize) {
    let n = rows.len() / 9;
    if n == 0 {
        rows.extend([10 + r.below(6) as u32, 0, 0, 0, 0, 0, 0, 0, 0]);
        return;
    }
    let (i, j) = (r.below(n), r.below(n));
    match r.below(12) {
        0 => {
            rows.drain(i * 9..i * 9 + 9);
        }
        1 => {
            let row = rows[i * 9..i * 9 + 9].to_vec();
            rows.splice(j * 9..j * 9, row);
        }
        2 => {
            for k in 0..9 {
                rows.swap(i * 9 + k, j * 9 + k);
            }
        }
        3 => rows.truncate(r.below(rows.len())),
        4 => rows[i * 9] = 9 + r.below(8) as u32,
        5 => rows[i * 9 + 8] = 1,
        6 if rows[i * 9] != 11 => {
            let length = r.pick(&[256, 300, 255, 4]).min(text);
            let start = text - length;
            (rows[i * 9 + 1], rows[i * 9 + 2]) = (start as u32, length as u32);
        }
        7 if rows[i * 9] != 11 => rows[i * 9 + 2] = rows[i * 9 + 2].wrapping_add(r.pick(&[1, 2, u32::MAX, 1000])),
        8 => rows[i * 9 + 1] = r.pick(&[0, 1, u32::MAX, text as u32, text as u32 + 1]),
        _ => {
            let number = &mut rows[i * 9 + 1 + r.below(8)];
            *number = match r.below(3) {
                0 => number.wrapping_add(r.pick(&[1, u32::MAX, 8])),
                1 => r.pick(&[65535, 65536, 255, 256]),
                _ => r.below(70) as u32,
            };
        }
    }
}

/// Stores, held counts and tables that may not fit, held to the plain program.
fn lent(r: &mut Rng, sheet: &Sheet, tally: &mut Tally) {
    let bytes = some_stream(r, sheet);
    let declared = bytes.get(4..8).map_or(0, |x| u32::from_le_bytes(x.try_into().unwrap()) as usize);
    let room = match r.below(4) {
        0 => r.below(12),
        1 => r.below(8 + declared + 2),
        _ => 8 + declared + r.below(3),
    };
    let mut store: Vec<u8> = (0..room).map(|_| r.byte()).collect();
    let before = r.below(bytes.len() + 1).min(room);
    store[..before].copy_from_slice(&bytes[..before]);
    let held = if r.one_in(6) { r.pick(&[room as u64 + 1, u64::MAX, room as u64]) } else { before as u64 };
    let piece = &bytes[before..];
    let [sn, ln] = [0; 2].map(|_| r.pick(&[0, 10, 30, 60, 500, 500]));
    let (symbology, layout) = (ours::table(r, sn), ours::table(r, ln));
    let out = [0; 20].map(|_| r.next());
    let got = calls::feed(held, &store, piece, &sheet.0, &symbology, &layout, &out);

    let mut wanted = calls::FeedAnswer { number: 0, out, store: store.clone(), symbology, layout };
    let answer = feed_paper(&mut wanted, held, piece, sheet);
    let kind = if got == wanted {
        Kind::Agreed
    } else {
        let text = format!("paper {} {:?}, here {} {:?}", wanted.number, &wanted.out[10..], got.number, &got.out[10..]);
        Kind::Unexplained(format!("{text}; held {held}, store {}, piece {}", hex(&store), hex(piece)))
    };
    tally.add(Beside::Paper, "stores and tables", &answer, kind);
}

/// What the plain program makes of a feed, put into the answer that is wanted.
fn feed_paper(wanted: &mut calls::FeedAnswer, held: u64, piece: &[u8], sheet: &Sheet) -> Answer {
    let (taken, end) = if held > wanted.store.len() as u64 {
        (0, Stage::Refused((1, None)))
    } else {
        paper::feed(held as usize, &mut wanted.store, piece, &sheet.0)
    };
    let now = held.wrapping_add(taken as u64);
    wanted.out[16..19].copy_from_slice(&[taken as u64, now, 0]);
    match end {
        Stage::Needs(n) => {
            wanted.out[18] = n as u64;
            Answer::Needs(n as u64)
        }
        Stage::Refused((number, place)) => {
            wanted.number = number;
            place.into_iter().for_each(|place| wanted.out[13] = place as u64);
            Answer::Refused(number, place)
        }
        Stage::Done => read_rows(wanted, now as usize),
    }
}

/// Puts what a whole start comes to into the answer that is wanted: its values and rows, or 3 and the rows needed.
fn read_rows(wanted: &mut calls::FeedAnswer, held: usize) -> Answer {
    let values = crate::walk::block(wanted.store[3], &wanted.store[8..held]);
    if wanted.symbology.len() / ROW < values.symbology.len() || wanted.layout.len() / 9 < values.layout.len() {
        wanted.number = 3;
        wanted.out[10..12].copy_from_slice(&[values.symbology.len() as u64, values.layout.len() as u64]);
        return Answer::Refused(3, None);
    }
    wanted.out[..16].copy_from_slice(&values.out());
    wanted.symbology = columns::filled(&wanted.symbology, &values.symbology);
    wanted.layout[..9 * values.layout.len()].copy_from_slice(values.layout.as_flattened());
    Answer::Accepted(Box::default())
}

/// Layouts with sheets of random numbers, special ids that coincide among them, held to the plain program.
fn any_sheet(r: &mut Rng, tally: &mut Tally) {
    let sheet = Sheet::random(r);
    let (bytes, width) = some_layout(r, &sheet);
    let answer = ours::layout(r, &bytes, width, &sheet);
    let wanted = match paper::layout(&bytes, width as usize, &sheet.0) {
        Ok(()) => {
            let (layout_version, layout) = crate::walk::layout(&bytes);
            Answer::Accepted(Box::new(crate::walk::Values { layout_version, layout, ..Default::default() }))
        }
        Err((number, place)) => Answer::Refused(number, place),
    };
    let kind = if answer == wanted {
        Kind::Agreed
    } else {
        let special = &sheet.0[512..];
        Kind::Unexplained(format!(
            "paper {wanted:?}, here {answer:?}; layout {} width {width}, special {special:?}",
            hex(&bytes)
        ))
    };
    tally.add(Beside::Paper, "layouts of any sheet", &answer, kind);
    tidy::asked(&sheet, None, tally, &bytes, width);
}
