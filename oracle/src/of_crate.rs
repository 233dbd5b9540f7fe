//! What the crate's text answers, in document 01's numbers.
use crate::walk::{self, Values};
use std::panic::{catch_unwind, AssertUnwindSafe};

/// An answer to held bytes, a block or a layout.
#[derive(Debug, Clone, PartialEq, Eq)]
pub enum Answer {
    Needs(u64),
    /// The number, and its place where it has one. The crate tells no place.
    Refused(u32, Option<usize>),
    Accepted(Box<Values>),
    /// The crate refuses by `check_size`, which is not in the part taken.
    CheckSize,
    /// An error text that no number was found for, a panic, or an answer that breaks its own form.
    Odd(String),
}

/// The natural size of an id, and whether it uses labels.
pub type Ids<'a> = &'a dyn Fn(u8) -> (Option<u16>, bool);

/// One build of the crate.
pub struct Build {
    /// Natural sizes and label users.
    pub install: fn(Ids<'_>),
    /// The answer after each piece of a stream that is cut at these places; the last answer stands for the rest.
    pub feed: fn(&[u8], &[usize]) -> Vec<Answer>,
    /// The answer to a layout, with version and rows in the values.
    pub layout: fn(&[u8], u16) -> Answer,
    /// What the crate writes for a layout that it reads.
    pub rewrite: fn(&[u8], u16) -> Result<Vec<u8>, String>,
    /// Whether two layouts read to the same value.
    pub same: fn(&[u8], &[u8], u16) -> bool,
    /// Whether two stream starts read to the same metadata.
    pub same_start: fn(&[u8], &[u8]) -> bool,
    /// What the crate writes for the metadata of a stream start that it reads, each text without what it does not write: letters beyond ASCII,
    /// and the last byte of its width.
    pub encode: fn(&[u8]) -> Result<Vec<u8>, String>,
}

macro_rules! build {
    ($krate:ident) => {
        pub mod $krate {
            use super::*;
            use ::$krate::{
                decode::dbn::fsm::{DbnFsm, ProcessResult},
                encode::dbn::MetadataEncoder,
                layout::StreamLayout,
                v3, v4, Metadata, VersionUpgradePolicy,
            };

            pub const BUILD: Build = Build {
                install: |sheet| v4::fields::install(sheet),
                feed,
                layout: |bytes, width| quiet(|| layout(bytes, width)),
                rewrite,
                same: |one, two, width| {
                    let read = |bytes| ::$krate::layout_decode(bytes, width).ok();
                    read(one).is_some() && read(one) == read(two)
                },
                same_start: |one, two| metadata(one).is_some() && metadata(one) == metadata(two),
                encode: |stream| encode(&written_by_the_crate(metadata(stream).ok_or("it is not read")?)),
            };

            /// The metadata of a whole stream start.
            pub fn metadata(stream: &[u8]) -> Option<Metadata> {
                let mut fsm = Fsm::new(stream[3]);
                fsm.write_all(stream);
                match fsm.process() {
                    ProcessResult::Metadata(metadata) => Some(metadata),
                    _ => None,
                }
            }

            /// The metadata with texts that the crate's encoder takes.
            fn written_by_the_crate(mut m: Metadata) -> Metadata {
                let short = |text: &mut String, width: usize| {
                    text.retain(|letter| letter.is_ascii());
                    text.truncate(width - 1);
                };
                short(&mut m.dataset, if m.version == 4 { 38 } else { 16 });
                let intervals = |mapping: &mut ::$krate::SymbolMapping| {
                    short(&mut mapping.raw_symbol, m.symbol_cstr_len);
                    mapping.intervals.iter_mut().for_each(|interval| short(&mut interval.symbol, m.symbol_cstr_len));
                };
                m.mappings.iter_mut().for_each(intervals);
                let lists = [&mut m.symbols, &mut m.partial, &mut m.not_found];
                lists.into_iter().flatten().for_each(|symbol| short(symbol, m.symbol_cstr_len));
                m
            }

            /// What the crate's own encoder writes: prelude and block.
            pub fn encode(metadata: &Metadata) -> Result<Vec<u8>, String> {
                let mut out = Vec::new();
                MetadataEncoder::new(&mut out).encode(metadata).map_err(|error| error.to_string())?;
                Ok(out)
            }

            /// The state machine for a version: 4 has a header of its own.
            pub enum Fsm {
                Below4(DbnFsm<v3::RecordHeader>),
                From4(DbnFsm<v4::RecordHeader>),
            }

            impl Fsm {
                pub fn new(version: u8) -> Self {
                    let builder = DbnFsm::builder().upgrade_policy(VersionUpgradePolicy::AsIs);
                    if version == 4 {
                        Self::From4(builder.header::<v4::RecordHeader>().build().expect("a state machine"))
                    } else {
                        Self::Below4(builder.build().expect("a state machine"))
                    }
                }

                pub fn write_all(&mut self, piece: &[u8]) {
                    match self {
                        Self::Below4(fsm) => fsm.write_all(piece),
                        Self::From4(fsm) => fsm.write_all(piece),
                    }
                }

                pub fn process(&mut self) -> ProcessResult<()> {
                    match self {
                        Self::Below4(fsm) => fsm.process(),
                        Self::From4(fsm) => fsm.process(),
                    }
                }
            }

            fn feed(stream: &[u8], cuts: &[usize]) -> Vec<Answer> {
                let version = stream.get(3).copied().unwrap_or(1);
                let mut fsm = Fsm::new(version);
                let mut answers = Vec::new();
                let mut at = 0;
                for &cut in cuts.iter().chain([&stream.len()]) {
                    let piece = &stream[at..cut];
                    at = cut;
                    let answer = quiet(|| {
                        fsm.write_all(piece);
                        held(&mut fsm, &stream[..at])
                    });
                    let waits = matches!(answer, Answer::Needs(_));
                    answers.push(answer);
                    if !waits {
                        break;
                    }
                }
                answers
            }

            fn held(fsm: &mut Fsm, held: &[u8]) -> Answer {
                let block = whole(held);
                match (fsm.process(), block) {
                    (ProcessResult::ReadMore(n), _) => Answer::Needs(n as u64),
                    (ProcessResult::Metadata(metadata), Some((version, block))) => {
                        let values = walk::block(version, block);
                        check(&metadata, version, &values, block);
                        Answer::Accepted(Box::new(values))
                    }
                    (ProcessResult::Err(error), block) => refused(&error.to_string(), block),
                    _ => Answer::Odd("a record, or metadata without a block".into()),
                }
            }

            fn layout(bytes: &[u8], width: u16) -> Answer {
                match ::$krate::layout_decode(bytes, width) {
                    Ok(read) => {
                        let (layout_version, rows) = walk::layout(bytes);
                        check_layout(&read, layout_version, &rows, bytes);
                        Answer::Accepted(Box::new(Values { layout_version, layout: rows, ..Default::default() }))
                    }
                    Err(error) => refused(&error.to_string(), None),
                }
            }

            fn rewrite(bytes: &[u8], width: u16) -> Result<Vec<u8>, String> {
                let read = ::$krate::layout_decode(bytes, width).map_err(|error| error.to_string())?;
                let mut out = Vec::new();
                ::$krate::layout_encode(&mut out, &read).map_err(|error| error.to_string())?;
                Ok(out)
            }

            /// The crate's values must be those of the walk.
            fn check(m: &Metadata, version: u8, v: &Values, block: &[u8]) {
                assert_eq!((m.version, m.dataset.as_bytes()), (version, &block[..v.dataset_len]));
                assert_eq!((m.schema.map(|s| s as u16), m.start), (v.schema, v.start));
                assert_eq!((m.end.map(|x| x.get()), m.limit.map(|x| x.get())), (v.end, v.limit));
                assert_eq!((m.stype_in.map(|s| s as u8), m.stype_out as u8), (v.stype_in, v.stype_out));
                assert_eq!((m.ts_out, m.symbol_cstr_len), (v.ts_out, v.width));
                let name = |r: &[u32; walk::ROW]| &block[r[1] as usize..(r[1] + r[2]) as usize];
                let walked: Vec<_> = v.symbology.iter().map(|r| (r[0], name(r), r[3], r[4], r[5])).collect();
                assert_eq!(symbology(m), walked);
                match &m.layout {
                    Some(read) => check_layout(read, v.layout_version, &v.layout, crate::of_crate::layout_of(block)),
                    None => assert!(v.layout.is_empty() && v.layout_version == 0),
                }
            }

            /// The rows that the crate's values come to, each with its name in the place of start and length. How many rows stand before a
            /// mapping is the owner of its intervals.
            fn symbology(m: &Metadata) -> Vec<(u32, &[u8], u32, u32, u32)> {
                let mut rows: Vec<(u32, &[u8], u32, u32, u32)> = Vec::new();
                for (kind, list) in [&m.symbols, &m.partial, &m.not_found].into_iter().enumerate() {
                    for symbol in list {
                        rows.push((kind as u32, symbol.as_bytes(), 0, 0, rows.len() as u32));
                    }
                }
                for mapping in &m.mappings {
                    let owner = rows.len() as u32;
                    rows.push((3, mapping.raw_symbol.as_bytes(), mapping.intervals.len() as u32, 0, owner));
                    for i in &mapping.intervals {
                        let [start, end] = [i.start_date, i.end_date].map(day_number);
                        rows.push((4, i.symbol.as_bytes(), start, end, owner));
                    }
                }
                rows
            }

            fn check_layout(l: &StreamLayout, version: u16, rows: &[[u32; 9]], bytes: &[u8]) {
                assert_eq!(version, l.stream_layout_version);
                let name = |r: &[u32; 9]| &bytes[r[1] as usize..(r[1] + r[2]) as usize];
                let mut rows = rows.iter();
                let fields = |rows: &mut std::slice::Iter<'_, [u32; 9]>,
                              defs: &[::$krate::layout::FieldDef],
                              names: &[String]| {
                    for d in defs {
                        let [id, offset, size, def] = [d.field_id, d.offset, d.size, d.def_index].map(u32::from);
                        let [type_id, flags, scale] = [d.type_id, d.flags, d.scale as u8].map(u32::from);
                        assert_eq!(rows.next(), Some(&[11, id, offset, size, type_id, flags, def, scale, 0]));
                    }
                    for text in names {
                        let row = rows.next().expect("a name");
                        assert_eq!((row[0], name(row)), (12, text.as_bytes()));
                    }
                };
                for r in &l.record_layouts {
                    let row = rows.next().expect("a record");
                    assert_eq!((row[0], name(row)), (10, r.name.as_bytes()));
                    let [rtype, schema, base] = [r.rtype, r.schema, r.base_record_size].map(u32::from);
                    let (low, high) = (r.layout_hash as u32, (r.layout_hash >> 32) as u32);
                    assert_eq!(row[3..], [rtype, schema, base, r.field_defs.len() as u32, low, high]);
                    fields(&mut rows, &r.field_defs, &r.field_names);
                }
                for s in &l.struct_layouts {
                    let row = rows.next().expect("a struct");
                    assert_eq!((row[0], name(row)), (13, s.name.as_bytes()));
                    assert_eq!(row[3..], [s.size as u32, s.field_defs.len() as u32, 0, 0, 0, 0]);
                    fields(&mut rows, &s.field_defs, &s.field_names);
                }
                for d in &l.label_defs {
                    let row = rows.next().expect("a label def");
                    assert_eq!((row[0], name(row), row[3]), (14, d.name.as_bytes(), d.labels.len() as u32));
                    // The crate keeps labels in a map, so their order is the walk's alone.
                    for _ in 0..row[3] {
                        let row = rows.next().expect("a label");
                        assert_eq!((row[0], name(row)), (15, d.labels[&(row[3] as u16)].as_bytes()));
                    }
                }
                assert_eq!(rows.next(), None);
            }
        }
    };
}
build!(dbn);
build!(dbn_size);
build!(dbn_align);
build!(dbn2);
build!(dbn2_size);
build!(dbn2_align);

/// The three builds with the first sheet's ids, and the three with the second's: unchanged, without `check_size`, and also
/// with document 01's alignment.
pub const BUILDS: [[Build; 3]; 2] =
    [[dbn::BUILD, dbn_size::BUILD, dbn_align::BUILD], [dbn2::BUILD, dbn2_size::BUILD, dbn2_align::BUILD]];

/// The day number of a date of the crate's: its Julian day number, by the formula of Fliegel and van Flandern, less that of 1 January of
/// year 0.
fn day_number(date: time::Date) -> u32 {
    let (year, month, day) = (date.year(), date.month() as i32, date.day() as i32);
    // -1 in January and February, else 0.
    let before_march = (month - 14) / 12;
    let years = 1461 * (year + 4800 + before_march) / 4;
    let months = 367 * (month - 2 - 12 * before_march) / 12;
    let centuries = 3 * ((year + 4900 + before_march) / 100) / 4;
    (years + months - centuries + day - 32_075 - 1_721_060) as u32
}

/// The layout part of an accepted block.
pub fn layout_of(block: &[u8]) -> &[u8] {
    &block[104..104 + walk::u32_at(block, 100) as usize]
}

/// The version and block of held bytes that have them whole.
fn whole(held: &[u8]) -> Option<(u8, &[u8])> {
    let length = walk::u32_at(held.get(..8)?, 4) as usize;
    Some((held[3], held[8..].get(..length)?)).filter(|_| length >= 100)
}

fn quiet(f: impl FnOnce() -> Answer) -> Answer {
    catch_unwind(AssertUnwindSafe(f)).unwrap_or_else(|e| {
        let text = e.downcast_ref::<String>().cloned();
        let text = text.or_else(|| e.downcast_ref::<&str>().map(|s| s.to_string()));
        Answer::Odd(format!("panic: {}", text.unwrap_or_default()))
    })
}

fn refused(message: &str, block: Option<(u8, &[u8])>) -> Answer {
    if message.starts_with("layout: ") && message.contains("doesn't fit its") {
        return Answer::CheckSize;
    }
    number(message, block).map_or_else(|| Answer::Odd(message.into()), |number| Answer::Refused(number, None))
}

/// The number of an error text. The block settles what the text does not tell: 22 from 23, and 44 from 50.
fn number(message: &str, block: Option<(u8, &[u8])>) -> Option<u32> {
    let (kind, text) = message.split_once(": ")?;
    match kind {
        "decode" => decode_number(text, block),
        "utf8" => Some(match text {
            "reading dataset from metadata" => 20,
            "parsing raw symbol" => 36,
            _ if text.starts_with("decoding symbol at index") => 32,
            _ if text.starts_with("parsing symbol for mapping interval") => 40,
            _ => return None,
        }),
        "conversion" if text.ends_with("Schema") => Some(21),
        "conversion" if text.ends_with("SType") => {
            let (version, block) = block?;
            let stype_in = block[match version {
                1 => 50,
                4 => 64,
                _ => 42,
            }];
            Some(if stype_in == 255 || ::dbn::SType::try_from(stype_in).is_ok() { 23 } else { 22 })
        }
        "layout" => layout_number(text),
        _ => None,
    }
}

fn decode_number(text: &str, block: Option<(u8, &[u8])>) -> Option<u32> {
    Some(match text {
        "invalid DBN header" => 10,
        "invalid DBN metadata. Metadata length shorter than fixed length." => 12,
        "a DBN version 4 stream must carry a stream layout" => 26,
        "stream layout length: ended mid-field" => 24,
        "stream layout: ended mid-field" => match block {
            Some((_, block)) if walk::u32_at(block, 100) as usize > block.len() - 104 => 44,
            _ => 50,
        },
        "record layout: ended mid-field" | "struct layout: ended mid-field" | "label def: ended mid-field" => 50,
        "symbology length: ended mid-field" => 27,
        "symbology: ended mid-field" => 45,
        "unexpected end of metadata buffer in symbol cstr" => 30,
        "unexpected end of metadata buffer in symbol mapping" => 33,
        _ if text.starts_with("can't decode newer version") => 11,
        _ if text.starts_with("version ") && text.contains("metadata carries a") => 25,
        _ if text.starts_with("symbology section declares") => 28,
        _ if text.starts_with("symbol list count declares") => 31,
        _ if text.starts_with("symbol mapping count declares") => 34,
        _ if text.starts_with("unexpected end of metadata buffer while parsing symbol mapping") => 35,
        _ if text.starts_with("interval count of symbol mapping") => 37,
        _ if text.contains("while parsing start date of mapping interval") => 38,
        _ if text.contains("while parsing end date of mapping interval") => 39,
        _ => return None,
    })
}

fn layout_number(text: &str) -> Option<u32> {
    let ends = [
        ("` is not NUL-terminated", 54),
        ("is shorter than its own prefix", 51),
        ("name contains a NUL byte", 52),
        ("name is not UTF-8", 53),
    ];
    if let Some((_, number)) = ends.iter().find(|(end, _)| text.ends_with(end)) {
        return Some(*number);
    }
    // What follows the name, which may hold anything.
    let tail = text.rsplit_once("`: ").map_or(text, |parts| parts.1);
    if tail.starts_with("symbol field") {
        return Some(77);
    }
    let parts = [
        ("duplicate label code", 55),
        ("-byte alignment", 60),
        ("duplicate rtype", 61),
        ("is reserved: its low byte", 62),
        ("smaller than the header", 63),
        ("not a multiple of 8", 64),
        ("duplicate field id", 71),
        ("nests a struct", 72),
        ("out of range for", 73),
        ("-aligned", 74),
        ("has size 0", 75),
        ("only -9 is currently", 76),
        ("overflows u16", 78),
        ("flagged an extension", 79),
        (", past base", 80),
        ("base coverage gap", 81),
        ("not fully covered", 82),
        ("extension gap", 83),
    ];
    parts.iter().find(|(part, _)| tail.contains(part)).map(|(_, number)| *number)
}

#[cfg(test)]
mod tests {
    use super::*;
    use crate::paper;

    #[test]
    fn the_crate_s_dates_have_the_plain_program_s_numbers() {
        for year in 0..=9999 {
            for (month, day) in [(1, 1), (2, 28), (2, 29), (3, 1), (12, 31)] {
                let stored = year * 10000 + month * 100 + day;
                let month = time::Month::try_from(month as u8).expect("a month");
                let date = time::Date::from_calendar_date(year as i32, month, day as u8);
                assert_eq!(date.is_ok(), paper::is_date(stored), "{stored}");
                if let Ok(date) = date {
                    assert_eq!(day_number(date), paper::day_number(stored), "{stored}");
                }
            }
        }
    }
}
