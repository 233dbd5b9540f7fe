//! Documents 01 and 02 as a plain program: verdicts only, with no care for speed.
//!
//! The crate has no word for a part of the papers: the places of refusals, lent stores and tables (1, 2, 3), sizes (13), what
//! follows a NUL (29, 41 to 43), rows (90 to 96), what is untidy (120 to 123), and sheets whose special ids coincide. There the C functions are
//! held to this program. Where the crate has an answer it decides the number, and this program must give the same.
//!
//! A part of the given bytes is read as those bytes up to its end, from its start on. So every place counts from what was given.
use crate::walk::ENTRY;

/// A refusal: its number, and its place where it has one.
pub type Refused = (u32, Option<usize>);

/// Accepted, or refused.
pub type Verdict = Result<(), Refused>;

/// The numbers of a text that has more than NULs after a NUL: the dataset, a list's symbol, a raw symbol, an interval's symbol.
pub const AFTER_NUL: [u32; 4] = [29, 41, 42, 43];

fn at(number: u32, place: usize) -> Refused {
    (number, Some(place))
}

/// A refusal without a place.
fn bare(number: u32) -> Refused {
    (number, None)
}

/// The type sheet, as it is lent.
pub type Sheet = [u16; 520];

fn size(s: &Sheet, id: u8) -> usize {
    s[id as usize] as usize
}

fn is(s: &Sheet, which: usize, id: u8) -> bool {
    s[which] == id as u16
}

const STRUCT: usize = 512;
const SYMBOL: usize = 513;
const DECIMAL: usize = 514;
const PADDING: usize = 515;

/// The number of so many bytes at `p`, which then stands after it. One that does not fit is refused at its first byte.
fn number(b: &[u8], p: &mut usize, bytes: usize, refusal: u32) -> Result<usize, Refused> {
    let part = b.get(*p..*p + bytes).ok_or(at(refusal, *p))?;
    *p += bytes;
    Ok(part.iter().rev().fold(0, |sum, &x| sum * 256 + x as usize))
}

/// Unicode's Table 3-7.
pub fn is_text(b: &[u8]) -> bool {
    let at = |i: usize| b.get(i).copied().unwrap_or(0) as u32;
    let tail = |i: usize| (0x80..=0xBF).contains(&at(i));
    let mut i = 0;
    while i < b.len() {
        let first = at(i);
        let second = match first {
            0xE0 => 0xA0..=0xBF,
            0xED => 0x80..=0x9F,
            0xF0 => 0x90..=0xBF,
            0xF4 => 0x80..=0x8F,
            _ => 0x80..=0xBF,
        };
        let good = second.contains(&at(i + 1));
        i += match first {
            0..=0x7F => 1,
            0xC2..=0xDF if good => 2,
            0xE0..=0xEF if good && tail(i + 2) => 3,
            0xF0..=0xF4 if good && tail(i + 2) && tail(i + 3) => 4,
            _ => return false,
        };
    }
    true
}

/// Whether a year has a leap day, by the Gregorian rule.
fn is_leap(year: u32) -> bool {
    year.is_multiple_of(4) && (!year.is_multiple_of(100) || year.is_multiple_of(400))
}

/// The days of a month, 0 where there is no such month.
fn days_in(year: u32, month: u32) -> u32 {
    match month {
        4 | 6 | 9 | 11 => 30,
        2 => 28 + is_leap(year) as u32,
        1..=12 => 31,
        _ => 0,
    }
}

/// Year, month and day of a stored date.
fn parts_of(date: u32) -> [u32; 3] {
    [date / 10000, date / 100 % 100, date % 100]
}

/// Years 0 to 9999, Gregorian rule.
pub fn is_date(date: u32) -> bool {
    let [year, month, day] = parts_of(date);
    year <= 9999 && day >= 1 && day <= days_in(year, month)
}

/// The number of a date: the days of the years before it, of the months before it, and of its month before it.
pub fn day_number(date: u32) -> u32 {
    let [year, month, day] = parts_of(date);
    let years: u32 = (0..year).map(|year| 365 + is_leap(year) as u32).sum();
    let months: u32 = (1..month).map(|month| days_in(year, month)).sum();
    years + months + day - 1
}

/// The date of a day number, at most 3,652,424.
pub fn date_of(mut day: u32) -> u32 {
    let (mut year, mut month) = (0, 1);
    while day >= 365 + is_leap(year) as u32 {
        day -= 365 + is_leap(year) as u32;
        year += 1;
    }
    while day >= days_in(year, month) {
        day -= days_in(year, month);
        month += 1;
    }
    year * 10000 + month * 100 + day + 1
}

#[derive(Clone, Copy)]
struct Entry {
    id: usize,
    offset: usize,
    size: usize,
    type_id: u8,
    flags: u8,
    def: usize,
    scale: u8,
}

/// A layout as the rules see it.
#[derive(Default)]
struct Parts {
    records: Vec<(usize, usize, Vec<Entry>)>,
    structs: Vec<(usize, Vec<Entry>)>,
    labels: usize,
}

/// A text that does not fit, or breaks a rule, is refused at its first byte; 54 is at the byte in the NUL's place.
fn name(s: &[u8], p: &mut usize) -> Verdict {
    let length = number(s, p, 1, 50)?;
    let text = s.get(*p..*p + length).ok_or(at(50, *p))?;
    if text.contains(&0) {
        return Err(at(52, *p));
    }
    if !is_text(text) {
        return Err(at(53, *p));
    }
    *p += length;
    let closing = *p;
    match number(s, p, 1, 50)? {
        0 => Ok(()),
        _ => Err(at(54, closing)),
    }
}

/// Entries, then their names. An entry that does not fit is refused at its first byte.
fn fields(s: &[u8], p: &mut usize) -> Result<Vec<Entry>, Refused> {
    let count = number(s, p, 2, 50)?;
    let mut out = Vec::new();
    for _ in 0..count {
        let e = s.get(*p..*p + ENTRY).ok_or(at(50, *p))?;
        let u16_at = |i: usize| e[i] as usize + 256 * e[i + 1] as usize;
        out.push(Entry {
            id: u16_at(0),
            offset: u16_at(2),
            size: u16_at(4),
            type_id: e[6],
            flags: e[7],
            def: u16_at(8),
            scale: e[10],
        });
        *p += ENTRY;
    }
    for _ in 0..count {
        name(s, p)?;
    }
    Ok(out)
}

/// The bytes up to the end of the section at `p`, which then stands at its body. The length counts its own two bytes. A
/// section past the end is refused at its body's first byte.
fn section<'a>(l: &'a [u8], p: &mut usize) -> Result<&'a [u8], Refused> {
    let start = *p;
    let length = number(l, p, 2, 50)?;
    if length < 2 {
        return Err(at(51, start));
    }
    l.get(..start + length).ok_or(at(50, *p))
}

/// The layout from `p` to the end of the bytes.
fn read_layout(l: &[u8], mut p: usize) -> Result<Parts, Refused> {
    let mut parts = Parts::default();
    number(l, &mut p, 2, 50)?;
    for _ in 0..number(l, &mut p, 2, 50)? {
        let s = section(l, &mut p)?;
        let rtype = number(s, &mut p, 2, 50)?;
        number(s, &mut p, 2, 50)?;
        let base = number(s, &mut p, 2, 50)?;
        number(s, &mut p, 8, 50)?;
        name(s, &mut p)?;
        parts.records.push((rtype, base, fields(s, &mut p)?));
        p = s.len();
    }
    for _ in 0..number(l, &mut p, 2, 50)? {
        let s = section(l, &mut p)?;
        let size = number(s, &mut p, 2, 50)?;
        name(s, &mut p)?;
        parts.structs.push((size, fields(s, &mut p)?));
        p = s.len();
    }
    for _ in 0..number(l, &mut p, 2, 50)? {
        let s = section(l, &mut p)?;
        label_def(s, p)?;
        p = s.len();
        parts.labels += 1;
    }
    Ok(parts)
}

/// A label def. 55 is at the code that stands twice, and comes after the label's name.
fn label_def(s: &[u8], mut p: usize) -> Verdict {
    name(s, &mut p)?;
    let mut codes = Vec::new();
    for _ in 0..number(s, &mut p, 2, 50)? {
        let place = p;
        let code = number(s, &mut p, 2, 50)?;
        name(s, &mut p)?;
        if codes.contains(&code) {
            return Err(at(55, place));
        }
        codes.push(code);
    }
    Ok(())
}

fn natural(s: &Sheet, type_id: u8) -> usize {
    if is(s, PADDING, type_id) {
        1
    } else {
        size(s, type_id).max(1)
    }
}

/// The largest alignment in a struct, a struct entry counting as 1.
fn struct_align(s: &Sheet, entries: &[Entry]) -> usize {
    let align = |e: &Entry| if is(s, STRUCT, e.type_id) { 1 } else { natural(s, e.type_id) };
    entries.iter().map(align).max().unwrap_or(1)
}

/// What the entries of a record or struct are judged by.
struct Owner<'a> {
    s: &'a Sheet,
    parts: &'a Parts,
    width: usize,
    /// The base size of a record, the size of a struct.
    base: usize,
    record: bool,
}

/// What an entry's offset is to be a multiple of, or 72 or 73.
fn alignment(owner: &Owner<'_>, e: &Entry) -> Result<usize, u32> {
    let Owner { s, parts, .. } = owner;
    if is(s, STRUCT, e.type_id) {
        if !owner.record {
            return Err(72);
        }
        let (_, inner) = parts.structs.get(e.def).ok_or(73u32)?;
        if !is(s, PADDING, e.type_id) {
            return Ok(struct_align(s, inner));
        }
    } else if s[256 + e.type_id as usize] != 0 && e.def != s[517] as usize && e.def >= parts.labels {
        return Err(73);
    }
    Ok(natural(s, e.type_id))
}

/// 71 to 80 of an entry, which comes after those before. Gives whether it is an extension.
fn check_field(owner: &Owner<'_>, before: &[Entry], e: &Entry) -> Result<bool, u32> {
    let s = owner.s;
    let padding = is(s, PADDING, e.type_id);
    if !padding && before.iter().any(|x| !is(s, PADDING, x.type_id) && x.id == e.id) {
        return Err(71);
    }
    let align = alignment(owner, e)?;
    let extension = owner.record && e.offset >= owner.base;
    let marked = s[516] != 0 && e.flags as u16 / s[516] % 2 == 1;
    let faults = [
        (!e.offset.is_multiple_of(align), 74),
        (e.size == 0, 75),
        (is(s, DECIMAL, e.type_id) && e.scale != 0xF7, 76),
        (is(s, SYMBOL, e.type_id) && e.size != owner.width, 77),
        (e.offset + e.size > 65535, 78),
        (!padding && marked != extension, 79),
        (!extension && e.offset + e.size > owner.base, 80),
    ];
    match faults.iter().find(|(broken, _)| *broken) {
        Some((_, number)) => Err(*number),
        None => Ok(extension),
    }
}

/// 71 to 80 for each entry, then 81 to 83.
fn check_fields(owner: &Owner<'_>, entries: &[Entry]) -> Result<(), u32> {
    let (mut inside, mut extensions) = (Vec::new(), Vec::new());
    for (i, e) in entries.iter().enumerate() {
        let extension = check_field(owner, &entries[..i], e)?;
        if extension { &mut extensions } else { &mut inside }.push((e.offset, e.size));
    }
    if tile(&mut inside, 0).ok_or(81u32)? != owner.base {
        return Err(82);
    }
    tile(&mut extensions, owner.base).ok_or(83u32)?;
    Ok(())
}

/// Where spans without gap or overlap, from a place on, end.
fn tile(spans: &mut [(usize, usize)], from: usize) -> Option<usize> {
    spans.sort();
    spans.iter().try_fold(from, |at, (offset, size)| (*offset == at).then_some(at + size))
}

/// 60 to 83, which have no place.
fn rules(s: &Sheet, parts: &Parts, width: usize) -> Result<(), u32> {
    for (size, entries) in &parts.structs {
        if size % struct_align(s, entries) != 0 {
            return Err(60);
        }
        check_fields(&Owner { s, parts, width, base: *size, record: false }, entries)?;
    }
    for (i, (rtype, base, entries)) in parts.records.iter().enumerate() {
        if parts.records[..i].iter().any(|r| r.0 == *rtype) {
            return Err(61);
        }
        if rtype % 256 == 0x4E {
            return Err(62);
        }
        if *base < s[518] as usize {
            return Err(63);
        }
        if base % 8 != 0 {
            return Err(64);
        }
        check_fields(&Owner { s, parts, width, base: *base, record: true }, entries)?;
    }
    Ok(())
}

/// A layout given with a symbol width.
pub fn layout(l: &[u8], width: usize, s: &Sheet) -> Verdict {
    if l.len() > u32::MAX as usize {
        return Err(bare(13));
    }
    layout_from(l, 0, width, s)
}

/// The layout from `p` to the end of the bytes, read and then ruled on.
fn layout_from(l: &[u8], p: usize, width: usize, s: &Sheet) -> Verdict {
    rules(s, &read_layout(l, p)?, width).map_err(bare)
}

/// Request 11: a layout that may be tidy. The reader's refusal comes first, then the first untidy thing in wire order.
pub fn tidy(l: &[u8], width: usize, s: &Sheet) -> Verdict {
    layout(l, width, s)?;
    let mut p = 2;
    for head in [14, 2, 0] {
        for _ in 0..number(l, &mut p, 2, 50)? {
            let s = section(l, &mut p)?;
            p += head;
            name(s, &mut p)?;
            if head == 0 { rising_labels(s, &mut p) } else { zeroed_fields(s, &mut p) }?;
            nothing_left(s, p, 120)?;
        }
    }
    nothing_left(l, p, 123)
}

fn nothing_left(s: &[u8], p: usize, refusal: u32) -> Verdict {
    if p < s.len() {
        Err(at(refusal, p))
    } else {
        Ok(())
    }
}

/// Labels, of which each has a code above that of the one before.
fn rising_labels(s: &[u8], p: &mut usize) -> Verdict {
    let mut before = None;
    for _ in 0..number(s, p, 2, 50)? {
        let place = *p;
        let code = number(s, p, 2, 50)?;
        if before.is_some_and(|before| code <= before) {
            return Err(at(121, place));
        }
        before = Some(code);
        name(s, p)?;
    }
    Ok(())
}

/// Entries, in which zeros follow the eleven bytes that are read, then their names.
fn zeroed_fields(s: &[u8], p: &mut usize) -> Verdict {
    let count = number(s, p, 2, 50)?;
    for _ in 0..count {
        if let Some(place) = (*p + 11..*p + ENTRY).find(|&place| s[place] != 0) {
            return Err(at(122, place));
        }
        *p += ENTRY;
    }
    (0..count).try_for_each(|_| name(s, p))
}

/// The symbology from `p` to the end of the bytes. Gives the place that its contents reach.
fn symbology(s: &[u8], mut p: usize, width: usize) -> Result<usize, Refused> {
    for _ in 0..3 {
        let place = p;
        let count = number(s, &mut p, 4, 30)?;
        if count > 0 && (width == 0 || count > (s.len() - p) / width) {
            return Err(at(31, place));
        }
        for _ in 0..count {
            text(s, &mut p, width, [32, 41])?;
        }
    }
    let place = p;
    let count = number(s, &mut p, 4, 33)?;
    if count > (s.len() - p) / (width + 4) {
        return Err(at(34, place));
    }
    for _ in 0..count {
        mapping(s, &mut p, width)?;
    }
    Ok(p)
}

/// A mapping. One that is cut short is refused at its first byte.
fn mapping(s: &[u8], p: &mut usize, width: usize) -> Verdict {
    if s.len() - *p < width + 4 {
        return Err(at(35, *p));
    }
    text(s, p, width, [36, 42])?;
    let place = *p;
    let intervals = number(s, p, 4, 35)?;
    if intervals > (s.len() - *p) / (width + 8) {
        return Err(at(37, place));
    }
    for _ in 0..intervals {
        for refusal in [38, 39] {
            let place = *p;
            if !is_date(number(s, p, 4, 37)? as u32) {
                return Err(at(refusal, place));
            }
        }
        text(s, p, width, [40, 43])?;
    }
    Ok(())
}

/// A dataset or symbol, for which there is room. It is UTF-8 over its full width, and after a NUL only NULs follow; else it is
/// refused at its first byte, by the first or the second of the numbers.
fn text(s: &[u8], p: &mut usize, width: usize, [not_utf8, after_nul]: [u32; 2]) -> Verdict {
    let text = &s[*p..*p + width];
    if !is_text(text) {
        return Err(at(not_utf8, *p));
    }
    let mut after = text.iter().skip_while(|&&byte| byte != 0);
    if after.any(|&byte| byte != 0) {
        return Err(at(after_nul, *p));
    }
    *p += width;
    Ok(())
}

/// 20 to 23 and 29 of a block's first 100 bytes. Gives the symbol width.
fn header(version: u8, b: &[u8]) -> Result<usize, Refused> {
    let dataset = if version == 4 { 38 } else { 16 };
    let mut p = 0;
    text(b, &mut p, dataset, [20, 29])?;
    let schema = number(b, &mut p, 2, 0)?;
    if schema > 19 && schema != 65535 {
        return Err(at(21, dataset));
    }
    p += if version == 1 { 32 } else { 24 };
    if b[p] > 12 && b[p] != 255 {
        return Err(at(22, p));
    }
    if b[p + 1] > 12 {
        return Err(at(23, p + 1));
    }
    p += 3;
    if version == 1 {
        return Ok(22);
    }
    number(b, &mut p, 2, 0)
}

/// A block given with a version. Its version would stand at byte 3 of a prelude.
pub fn block(version: u8, b: &[u8], s: &Sheet) -> Verdict {
    if !(1..=4).contains(&version) {
        return Err(at(11, 3));
    }
    if b.len() < 100 || b.len() > u32::MAX as usize {
        return Err(bare(13));
    }
    let width = header(version, b)?;
    let mut p = 100;
    let length = number(b, &mut p, 4, 24)?;
    let inner = b.get(..p + length).ok_or(at(44, p))?;
    if version < 4 && length != 0 {
        return Err(at(25, 100));
    }
    if version < 4 {
        return symbology(b, p, width).map(|_| ());
    }
    if length == 0 {
        return Err(at(26, 100));
    }
    layout_from(inner, p, width, s)?;
    p = inner.len();
    let length = number(b, &mut p, 4, 27)?;
    let section = b.get(..p + length).ok_or(at(45, p))?;
    let reached = symbology(section, p, width)?;
    if reached != section.len() {
        return Err(at(28, reached));
    }
    Ok(())
}

/// What held bytes come to, with tables long enough.
#[derive(Debug, Clone, Copy, PartialEq, Eq)]
pub enum Stage {
    Needs(usize),
    Done,
    Refused(Refused),
}

/// The verdict on held bytes: 1 beyond the store; 2 below 8; with 8 held 10, 11, 12, 2 for 8 + length, 1 beyond the whole
/// block; then the block. The places of 10 to 12 count from the prelude, those of the block from the block.
pub fn stage(held: usize, store: &[u8], s: &Sheet) -> Stage {
    if held > store.len() {
        return Stage::Refused(bare(1));
    }
    if store.len() < 8 {
        return Stage::Refused(bare(2));
    }
    if held < 8 {
        return Stage::Needs(8 - held);
    }
    let length = u32::from_le_bytes(store[4..8].try_into().unwrap()) as usize;
    let refusals = [
        (&store[..3] != b"DBN", at(10, 0)),
        (!(1..=4).contains(&store[3]), at(11, 3)),
        (length < 100, at(12, 4)),
        (store.len() < 8 + length, bare(2)),
        (held > 8 + length, bare(1)),
    ];
    if let Some((_, refused)) = refusals.iter().find(|(broken, _)| *broken) {
        return Stage::Refused(*refused);
    }
    if held < 8 + length {
        return Stage::Needs(8 + length - held);
    }
    block(store[3], &store[8..held], s).map_or_else(Stage::Refused, |()| Stage::Done)
}

/// A feed: how many bytes it takes, and what the held bytes then come to. The store gets the bytes taken.
pub fn feed(held: usize, store: &mut [u8], piece: &[u8], s: &Sheet) -> (usize, Stage) {
    let mut taken = 0;
    loop {
        match stage(held + taken, store, s) {
            Stage::Needs(n) if taken < piece.len() => {
                let next = n.min(piece.len() - taken);
                store[held + taken..held + taken + next].copy_from_slice(&piece[taken..taken + next]);
                taken += next;
            }
            end => return (taken, end),
        }
    }
}

/// What the held bytes come to after each piece of a stream that is cut at these places, in a store that is long enough. The
/// last one stands for the rest.
pub fn fed(stream: &[u8], cuts: &[usize], s: &Sheet) -> Vec<Stage> {
    let declared = stream.get(4..8).map_or(0, |x| u32::from_le_bytes(x.try_into().unwrap()) as usize);
    let mut store = vec![0; 8 + declared];
    let (mut stages, mut from, mut held) = (Vec::new(), 0, 0);
    for &cut in cuts.iter().chain([&stream.len()]) {
        let (taken, stage) = feed(held, &mut store, &stream[from..cut], s);
        (from, held) = (cut, held + taken);
        stages.push(stage);
        if !matches!(stage, Stage::Needs(_)) {
            break;
        }
    }
    stages
}

/// The bytes of rows: 90 to 95, then the rules. The length of an output is not asked.
pub fn write(rows: &[u32], text: &[u8], version: u16, width: usize, s: &Sheet) -> Result<Vec<u8>, u32> {
    let out = printed(rows, text, version)?;
    rules(s, &read_layout(&out, 0).expect("written bytes are a layout"), width)?;
    Ok(out)
}

/// The bytes of rows: 90 to 95, each over all rows before the next.
pub fn printed(rows: &[u32], text: &[u8], version: u16) -> Result<Vec<u8>, u32> {
    let items = items(rows, text)?;
    let kinds = [10, 13, 14].map(|kind| items.iter().filter(|item| item.row[0] == kind).count());
    if kinds.iter().any(|&n| n > 65535) || items.iter().any(|item| item.count > 65535) {
        return Err(91);
    }
    let named: Vec<&[u32]> = rows.chunks(9).filter(|row| row[0] != 11).collect();
    if named.iter().any(|row| row[2] > 255) {
        return Err(92);
    }
    if named.iter().any(|row| span(row, text).contains(&0) || !is_text(span(row, text))) {
        return Err(93);
    }
    let mut out = version.to_le_bytes().to_vec();
    let mut too_long = false;
    for (kind, count) in [10, 13, 14].into_iter().zip(kinds) {
        out.extend((count as u16).to_le_bytes());
        for item in items.iter().filter(|item| item.row[0] == kind) {
            let body = item.body(text);
            too_long |= body.len() + 2 > 65535;
            out.extend((body.len() as u16).wrapping_add(2).to_le_bytes());
            out.extend(body);
        }
    }
    if too_long || out.len() > u32::MAX as usize {
        return Err(94);
    }
    for item in items.iter().filter(|item| item.row[0] == 14) {
        let codes: Vec<u32> = item.after.chunks(9).map(|row| row[3]).collect();
        if codes.windows(2).any(|pair| pair[0] >= pair[1]) {
            return Err(95);
        }
    }
    Ok(out)
}

/// A record, struct or label def with the rows that belong to it.
struct Item<'a> {
    row: &'a [u32],
    count: usize,
    after: &'a [u32],
}

impl Item<'_> {
    fn body(&self, text: &[u8]) -> Vec<u8> {
        let mut out = Vec::new();
        let put16 = |out: &mut Vec<u8>, x: u32| out.extend((x as u16).to_le_bytes());
        let put_name = |out: &mut Vec<u8>, row: &[u32]| {
            out.push(row[2] as u8);
            out.extend(span(row, text));
            out.push(0);
        };
        match self.row[0] {
            10 => {
                for &number in &self.row[3..6] {
                    put16(&mut out, number);
                }
                out.extend(self.row[7].to_le_bytes());
                out.extend(self.row[8].to_le_bytes());
            }
            13 => put16(&mut out, self.row[3]),
            _ => {}
        }
        put_name(&mut out, self.row);
        put16(&mut out, self.count as u32);
        for row in self.after.chunks(9) {
            match row[0] {
                11 => {
                    for &number in &row[1..4] {
                        put16(&mut out, number);
                    }
                    out.extend([row[4] as u8, row[5] as u8]);
                    put16(&mut out, row[6]);
                    out.push(row[7] as u8);
                    out.extend([0; ENTRY - 11]);
                }
                12 => put_name(&mut out, row),
                _ => {
                    put16(&mut out, row[3]);
                    put_name(&mut out, row);
                }
            }
        }
        out
    }
}

fn span<'a>(row: &[u32], text: &'a [u8]) -> &'a [u8] {
    &text[row[1] as usize..row[1] as usize + row[2] as usize]
}

/// The rows as items, or 90 where they are malformed.
fn items<'a>(rows: &'a [u32], text: &[u8]) -> Result<Vec<Item<'a>>, u32> {
    if !rows.len().is_multiple_of(9) || !rows.chunks(9).all(|row| well_formed(row, text)) {
        return Err(90);
    }
    let mut items: Vec<Item<'a>> = Vec::new();
    let mut p = 0;
    while p < rows.len() {
        let row = &rows[p..p + 9];
        let (at, names) = match row[0] {
            10 => (6, 12),
            13 => (4, 12),
            14 => (3, 15),
            _ => return Err(90),
        };
        if items.last().is_some_and(|last| last.row[0] > row[0]) {
            return Err(90);
        }
        let count = row[at] as usize;
        p += 9;
        let expected = if names == 12 { vec![11, 12] } else { vec![15] };
        let start = p;
        for kind in expected {
            let end = count.checked_mul(9).and_then(|n| p.checked_add(n)).ok_or(90u32)?;
            let part = rows.get(p..end).ok_or(90u32)?;
            if part.chunks(9).any(|row| row[0] != kind) {
                return Err(90);
            }
            p = end;
        }
        items.push(Item { row, count, after: &rows[start..p] });
    }
    Ok(items)
}

/// Spans inside the text, numbers that fit their wire field, unused numbers 0.
fn well_formed(row: &[u32], text: &[u8]) -> bool {
    let (halves, bytes, unused): (&[usize], &[usize], usize) = match row[0] {
        10 => (&[3, 4, 5], &[], 9),
        11 => (&[1, 2, 3, 6], &[4, 5, 7], 8),
        12 => (&[], &[], 3),
        13 => (&[3], &[], 5),
        14 => (&[], &[], 4),
        15 => (&[3], &[], 4),
        _ => return false,
    };
    let inside = row[0] == 11 || row[1] as u64 + row[2] as u64 <= text.len() as u64;
    inside
        && halves.iter().all(|&i| row[i] <= 65535)
        && bytes.iter().all(|&i| row[i] <= 255)
        && row[unused..].iter().all(|&x| x == 0)
}

#[cfg(test)]
mod tests {
    //! Days and places counted by hand.
    use super::*;

    const SHEET: Sheet = [0; 520];

    #[test]
    fn days_are_counted_from_the_first_of_year_0() {
        // The last of January, the first of February, the leap day, and the end of year 0; then the first and last of year 1.
        let first =
            [(101, 0), (102, 1), (131, 30), (201, 31), (229, 59), (301, 60), (1231, 365), (10101, 366), (11231, 730)];
        // 400 years have 146,097 days, 97 of them leap days. 1900 has none.
        let round =
            [(4000101, 146_097), (16000101, 584_388), (20000101, 730_485), (19000228, 694_019), (19000301, 694_020)];
        for (date, number) in first.into_iter().chain(round).chain([(20230317, 738_961), (99991231, 3_652_424)]) {
            assert!(is_date(date), "{date}");
            assert_eq!((day_number(date), date_of(number)), (number, date), "{date}");
        }
    }

    fn bytes(parts: &[&[u8]]) -> Vec<u8> {
        parts.concat()
    }

    /// A layout whose one record (0), struct (1) or label def (2) is a section of this body. The body begins at 6, 8 or 10.
    fn layout_of(kind: usize, body: &[u8]) -> Vec<u8> {
        let mut out = vec![0; 2 + 2 * kind];
        out.extend([1, 0, body.len() as u8 + 2, 0]);
        out.extend(body);
        out
    }

    fn refused(l: &[u8]) -> Refused {
        layout(l, 3, &SHEET).expect_err("a refusal")
    }

    #[test]
    fn a_number_of_a_layout_that_is_missing_is_at_its_first_byte() {
        let empty = [0; 8];
        for (length, place) in [(0, 0), (1, 0), (2, 2), (3, 2), (4, 4), (5, 4), (6, 6), (7, 6)] {
            assert_eq!(refused(&empty[..length]), at(50, place), "{length} bytes");
        }
        assert_eq!(layout(&empty, 3, &SHEET), Ok(()));
        assert_eq!([refused(&[0, 0, 1, 0]), refused(&[0, 0, 1, 0, 9])], [at(50, 4); 2], "a section's length");
        // The numbers of a record: rtype, schema, base, hash, the length of its name, the NUL, the count of its fields.
        let starts = [0, 2, 4, 6, 14, 15, 16];
        for length in 0..18 {
            let place = 6 + starts.iter().rev().find(|&&start| start <= length).unwrap();
            assert_eq!(refused(&layout_of(0, &vec![0; length])), at(50, place), "{length} bytes");
        }
    }

    #[test]
    fn a_section_is_refused_at_its_length_or_at_its_body() {
        assert_eq!(refused(&[0, 0, 1, 0, 0, 0]), at(51, 4));
        assert_eq!(refused(&[0, 0, 0, 0, 1, 0, 1, 0, 7]), at(51, 6));
        assert_eq!(refused(&[0, 0, 1, 0, 3, 0]), at(50, 6));
        assert_eq!(refused(&[0, 0, 1, 0, 9, 0, 1, 2, 3]), at(50, 6));
        let mut two = layout_of(1, &[0; 6]);
        two[4] = 2;
        two.extend([0xFF, 0, 1, 2]);
        assert_eq!(refused(&two), at(50, 16), "the second section");
    }

    #[test]
    fn a_name_is_refused_at_its_text_or_at_its_closing_byte() {
        let name = |name: &[u8]| refused(&layout_of(2, name));
        assert_eq!(name(&[]), at(50, 10), "no length");
        assert_eq!([name(&[3]), name(&[3, b'a', b'b'])], [at(50, 11); 2], "cut");
        assert_eq!(name(&[3, b'a', 0, 0xFF]), at(52, 11), "52 before 53, and before the missing NUL");
        assert_eq!(name(&[3, b'a', b'b', 0xFF]), at(53, 11));
        assert_eq!(name(&[3, b'a', b'b', b'c']), at(50, 14), "no closing NUL");
        assert_eq!(name(&[3, b'a', b'b', b'c', 1]), at(54, 14));
        assert_eq!(name(&[0, 7]), at(54, 11));
    }

    #[test]
    fn a_field_entry_that_is_cut_is_at_its_first_byte() {
        // A struct: size, empty name, two fields.
        let head = [0, 0, 0, 0, 2, 0];
        let body = |entries: usize| refused(&layout_of(1, &bytes(&[&head, &vec![0; entries]])));
        assert_eq!([body(0), body(1), body(15)], [at(50, 14); 3]);
        assert_eq!([body(16), body(17), body(31)], [at(50, 30); 3]);
        assert_eq!([body(32), body(33), body(34), body(35)], [at(50, 46), at(50, 47), at(50, 48), at(50, 49)]);
        let names = bytes(&[&head, &[0; 32], &[0, 0, 2, b'a', 0xFF, 0]]);
        assert_eq!(refused(&layout_of(1, &names)), at(53, 49));
    }

    #[test]
    fn a_label_code_that_stands_twice_is_at_the_second() {
        let def = [0, 0, 3, 0, 7, 0, 1, b'x', 0, 8, 0, 0, 0, 7, 0, 0];
        assert_eq!(refused(&layout_of(2, &bytes(&[&def, &[0]]))), at(55, 23));
        assert_eq!(refused(&layout_of(2, &bytes(&[&def, &[1]]))), at(54, 26), "the name comes first");
        assert_eq!(refused(&layout_of(2, &def)), at(50, 26));
        assert_eq!(refused(&layout_of(2, &def[..14])), at(50, 23), "the code is missing");
    }

    /// The first untidy thing of a layout with one record (0), struct (1) or label def (2) of this body, and these bytes after it.
    fn untidy(kind: usize, body: &[u8], after: &[u8]) -> Verdict {
        let layout = bytes(&[&layout_of(kind, body), &vec![0; 4 - 2 * kind], after]);
        assert_eq!(super::layout(&layout, 3, &SHEET), Ok(()), "the reader takes it");
        tidy(&layout, 3, &SHEET)
    }

    #[test]
    fn what_is_untidy_is_at_its_first_byte() {
        // A struct of one byte: size, empty name, a field of type 1 and size 1, its empty name.
        let entry = [0, 0, 0, 0, 1, 0, 1, 0, 0, 0, 0];
        let of_struct = |skipped: &[u8], left: &[u8]| {
            untidy(1, &bytes(&[&[1, 0, 0, 0, 1, 0], &entry, skipped, &[0, 0], left]), &[])
        };
        assert_eq!(of_struct(&[0; 5], &[]), Ok(()));
        assert_eq!(of_struct(&[1, 0, 0, 0, 0], &[7]), Err(at(122, 25)), "122 before 120");
        assert_eq!(of_struct(&[0, 0, 0, 2, 3], &[]), Err(at(122, 28)), "the first of two");
        assert_eq!([of_struct(&[0; 5], &[0]), of_struct(&[0; 5], &[9, 9])], [Err(at(120, 32)); 2], "zeros too");
        // A label def with an empty name and these codes.
        let of_labels = |codes: &[u8], left: &[u8], after: &[u8]| {
            let labels: Vec<u8> = codes.iter().flat_map(|&code| [code, 0, 0, 0]).collect();
            untidy(2, &bytes(&[&[0, 0, codes.len() as u8, 0], &labels, left]), after)
        };
        assert_eq!([of_labels(&[], &[], &[]), of_labels(&[0, 1, 9], &[], &[])], [Ok(()); 2]);
        assert_eq!([of_labels(&[5, 4, 3], &[1], &[]), of_labels(&[5, 4], &[], &[1])], [Err(at(121, 18)); 2]);
        assert_eq!(of_labels(&[5, 6, 3], &[], &[]), Err(at(121, 22)));
        assert_eq!(of_labels(&[5, 6], &[0], &[1]), Err(at(120, 22)), "120 before 123");
        assert_eq!([of_labels(&[], &[], &[0]), of_labels(&[], &[], &[1, 1])], [Err(at(123, 14)); 2]);
        let record = |left: &[u8]| untidy(0, &bytes(&[&[0; 18], left]), &[]);
        assert_eq!([record(&[]), record(&[0, 1])], [Ok(()), Err(at(120, 24))]);
        assert_eq!(tidy(&[0, 0, 1, 0, 1, 0], 3, &SHEET), Err(at(51, 4)), "the reader's refusal");
    }

    #[test]
    fn a_rule_has_no_place() {
        let record = layout_of(0, &bytes(&[&[0x4E, 0], &[0; 16]]));
        assert_eq!(refused(&record), at(50, 24), "the count of structs");
        assert_eq!(refused(&bytes(&[&record, &[0; 4]])), bare(62));
    }

    /// The verdict on a block of zeros with these bytes in it, symbol width 3.
    fn verdict(version: u8, length: usize, changes: &[(usize, &[u8])]) -> Verdict {
        let mut b = vec![0; length];
        b[if version == 4 { 67 } else { 45 }] = 3;
        for (place, part) in changes {
            b[*place..place + part.len()].copy_from_slice(part);
        }
        block(version, &b, &SHEET)
    }

    /// The refusal of such a block.
    fn block_with(version: u8, length: usize, changes: &[(usize, &[u8])]) -> Refused {
        verdict(version, length, changes).expect_err("a refusal")
    }

    #[test]
    fn the_header_and_the_two_lengths_of_a_block() {
        let header = |version| {
            let [schema, stype_in] = [[16, 50], [16, 42], [16, 42], [38, 64]][version as usize - 1];
            assert_eq!(block_with(version, 100, &[(schema - 1, &[0xFF])]), at(20, 0));
            assert_eq!(block_with(version, 100, &[(schema, &[0, 1])]), at(21, schema));
            assert_eq!(block_with(version, 100, &[(stype_in, &[13, 13])]), at(22, stype_in));
            assert_eq!(block_with(version, 100, &[(stype_in, &[255, 255])]), at(23, stype_in + 1));
            assert_eq!([100, 101, 103].map(|length| block_with(version, length, &[])), [at(24, 100); 3]);
            assert_eq!(block_with(version, 108, &[(100, &[5])]), at(44, 104), "5 of 4 bytes");
        };
        (1..=4).for_each(header);
        assert_eq!([block_with(2, 109, &[(100, &[5])]), block_with(4, 200, &[])], [at(25, 100), at(26, 100)]);
        let empty: (usize, &[u8]) = (100, &[8]);
        assert_eq!([112, 115].map(|length| block_with(4, length, &[empty])), [at(27, 112); 2]);
        assert_eq!(block_with(4, 120, &[empty, (112, &[5])]), at(45, 116));
        assert_eq!(block_with(4, 140, &[empty, (112, &[17])]), at(28, 132));
        assert_eq!(block_with(4, 140, &[empty, (112, &[15])]), at(33, 128), "28 comes after the contents");
        assert_eq!([block(0, &[], &SHEET), block(5, &[0; 200], &SHEET)], [Err(at(11, 3)); 2]);
        assert_eq!(block(1, &[0; 99], &SHEET), Err(bare(13)));
        assert_eq!(block_with(4, 200, &[(100, &[20]), (106, &[1]), (108, &[1])]), at(51, 108), "from the block");
    }

    #[test]
    fn the_symbology_of_a_block() {
        for (length, place) in [(104, 104), (107, 104), (108, 108), (112, 112), (115, 112)] {
            assert_eq!(block_with(2, length, &[]), at(30, place));
        }
        let two: (usize, &[u8]) = (108, &[2]);
        assert_eq!(block_with(2, 117, &[two]), at(31, 108), "two symbols of 3 in 5 bytes");
        assert_eq!(block_with(2, 130, &[two, (117, &[0xFF])]), at(32, 115), "the second symbol's last byte");
        assert_eq!([116, 119].map(|length| block_with(2, length, &[])), [at(33, 116); 2]);
        let one: (usize, &[u8]) = (116, &[1]);
        assert_eq!(block_with(2, 126, &[one]), at(34, 116), "a mapping of 7 in 6 bytes");
        assert_eq!(block_with(2, 127, &[one, (121, &[0xFF])]), at(36, 120));
        assert_eq!(block_with(2, 137, &[one, (123, &[1])]), at(37, 123), "an interval of 11 in 10 bytes");
        let dates: (usize, &[u8]) = (127, &[101, 0, 0, 0, 101]);
        assert_eq!(block_with(2, 138, &[one, (123, &[1])]), at(38, 127));
        assert_eq!(block_with(2, 138, &[one, (123, &[1]), (127, &[101])]), at(39, 131));
        assert_eq!(block_with(2, 138, &[one, (123, &[1]), dates, (137, &[0x80])]), at(40, 135));
        let mappings: (usize, &[u8]) = (116, &[2]);
        assert_eq!(block_with(2, 144, &[mappings, (123, &[1]), dates]), at(35, 138), "6 bytes for the second");
    }

    #[test]
    fn after_a_nul_of_the_dataset_only_nuls_follow() {
        for version in 1..=4 {
            let last = if version == 4 { 37 } else { 15 };
            let dataset = |changes: &[(usize, &[u8])]| block_with(version, 100, changes);
            assert_eq!(dataset(&[(last, b"x")]), at(29, 0), "NULs, then a letter in the last byte");
            assert_eq!([dataset(&[(0, b"\0x")]), dataset(&[(0, b"A\0\0\x01")])], [at(29, 0); 2]);
            assert_eq!(dataset(&[(0, b"A\0x"), (last, &[0xFF])]), at(20, 0), "20 before 29");
            assert_eq!(dataset(&[(last, b"x\0\x01")]), at(29, 0), "29 before 21");
            assert_eq!(dataset(&[(last + 1, b"\0\x01")]), at(21, last + 1), "the dataset ends before the schema");
            assert_eq!(dataset(&[(last - 1, b"x\0")]), at(29, 0));
            let full = vec![b'A'; last + 1];
            assert_eq!([dataset(&[]), dataset(&[(0, &full)]), dataset(&[(0, &full[1..])])], [at(24, 100); 3]);
            assert_eq!(dataset(&[(0, &full), (last - 1, b"\0")]), at(29, 0), "one NUL before the last byte");
        }
    }

    #[test]
    fn after_a_nul_of_a_list_s_symbol_only_nuls_follow() {
        let two: (usize, &[u8]) = (104, &[2]);
        let symbols = |first: &[u8]| verdict(2, 126, &[two, (108, first)]);
        assert_eq!(symbols(b"A\0x"), Err(at(41, 108)));
        assert_eq!(symbols(b"ABC\0\0x"), Err(at(41, 111)), "NULs, then a letter in the last byte");
        assert_eq!(symbols(b"A\0\xFF"), Err(at(32, 108)), "32 before 41");
        assert_eq!(symbols(b"A\0xA\0\xFF"), Err(at(41, 108)), "41 of the first before 32 of the second");
        assert_eq!(symbols(b"A\0\xFFA\0x"), Err(at(32, 108)));
        assert_eq!([symbols(b"ABCABC"), symbols(b"A\0\0\0\0\0"), symbols(b"ABCAB")], [Ok(()); 3], "NULs at the end");
        assert_eq!(block_with(2, 126, &[(104, &[200]), (108, b"A\0x")]), at(31, 104), "31 before the symbols");
        assert_eq!(block_with(2, 123, &[(108, &[1]), (112, b"\0x\0")]), at(41, 112), "the second list");
        assert_eq!(block_with(2, 123, &[(112, &[1]), (116, b"\0x")]), at(41, 116), "the third");
        assert_eq!(block_with(2, 130, &[(100, &[1]), (105, &[1]), (109, b"A\0x")]), at(25, 100), "25 before 41");
        // Version 4: a symbol that spans its section, and one with a byte after it that the contents do not reach.
        let list: [(usize, &[u8]); 3] = [(100, &[8]), (116, &[1]), (120, b"A\0x")];
        for section in [19, 20] {
            assert_eq!(block_with(4, 140, &[&list[..], &[(112, &[section])]].concat()), at(41, 120), "41 before 28");
        }
        assert_eq!(block_with(4, 140, &[list[0], list[1], (112, &[20])]), at(28, 135));
    }

    #[test]
    fn after_a_nul_of_a_mapping_s_symbols_only_nuls_follow() {
        let head: [(usize, &[u8]); 3] = [(116, &[1]), (123, &[1]), (127, &[101, 0, 0, 0, 101])];
        let mapping = |changes: &[(usize, &[u8])]| verdict(2, 138, &[&head, changes].concat());
        assert_eq!([mapping(&[]), mapping(&[(120, b"ABC"), (135, b"AB")])], [Ok(()); 2]);
        assert_eq!(mapping(&[(120, b"A\0x")]), Err(at(42, 120)));
        assert_eq!(mapping(&[(120, b"\0\0x")]), Err(at(42, 120)), "NULs, then a letter in the last byte");
        assert_eq!(mapping(&[(120, b"A\0\xFF")]), Err(at(36, 120)), "36 before 42");
        assert_eq!(mapping(&[(120, b"A\0x"), (123, &[9])]), Err(at(42, 120)), "42 before 37");
        assert_eq!(mapping(&[(120, b"A\0x"), (137, &[0xFF])]), Err(at(42, 120)), "42 before the intervals");
        assert_eq!(mapping(&[(135, b"A\0x")]), Err(at(43, 135)));
        assert_eq!(mapping(&[(135, b"\0\0x")]), Err(at(43, 135)), "NULs, then a letter in the last byte");
        assert_eq!(mapping(&[(135, b"A\0\xFF")]), Err(at(40, 135)), "40 before 43");
        assert_eq!(mapping(&[(127, &[0]), (135, b"A\0x")]), Err(at(38, 127)), "38 before 43");
        assert_eq!(mapping(&[(131, &[0]), (135, b"A\0x")]), Err(at(39, 131)), "39 before 43");
        let second: [(usize, &[u8]); 2] = [(123, &[2]), (138, &[101, 0, 0, 0, 101, 0, 0, 0, b'A', 0, b'x'])];
        assert_eq!(block_with(2, 149, &[&head[..], &second].concat()), at(43, 146), "the second interval");
        // Width 0: a raw symbol and an interval's symbol of no bytes.
        let none: [(usize, &[u8]); 2] = [(45, &[0]), (120, &[1, 0, 0, 0, 101, 0, 0, 0, 101])];
        assert_eq!(verdict(2, 132, &[none[0], (116, &[1]), none[1]]), Ok(()));
    }

    #[test]
    fn in_feeding_places_count_from_the_prelude_and_from_the_block() {
        let last = |stream: &[u8], cuts: &[usize]| *fed(stream, cuts, &SHEET).last().unwrap();
        let prelude = |magic: &[u8], version: u8, length: u8| bytes(&[magic, &[version, length, 0, 0, 0]]);
        assert_eq!(last(&prelude(b"DBM", 9, 9), &[2]), Stage::Refused(at(10, 0)));
        assert_eq!(last(&prelude(b"DBN", 9, 9), &[]), Stage::Refused(at(11, 3)));
        assert_eq!(last(&prelude(b"DBN", 4, 99), &[7]), Stage::Refused(at(12, 4)));
        let stream = bytes(&[&prelude(b"DBN", 2, 104), &[0; 104]]);
        assert_eq!(fed(&stream[..50], &[3, 8], &SHEET), [5, 104, 62].map(Stage::Needs));
        assert_eq!(last(&stream, &[3, 90]), Stage::Refused(at(30, 104)));
        let mut after_nul = stream.clone();
        after_nul[8 + 15] = b'x';
        assert_eq!(fed(&after_nul, &[8, 50], &SHEET)[1..], [Stage::Needs(62), Stage::Refused(at(29, 0))]);
        assert_eq!(stage(9, &stream[..8], &SHEET), Stage::Refused(bare(1)));
    }
}
