//! A layout with every kind of part: read, named, written back, refused.
mod common;
use common::{plain, stream_of, DECIMAL, PADDING, STRUCT, SYMBOL, TEXT, U64};
use dbn_start::{write_layout, Block, Field, Layout, Refusal, Tables};

fn name(out: &mut Vec<u8>, text: &str) {
    out.push(text.len() as u8);
    out.extend(text.as_bytes());
    out.push(0);
}

/// id, offset, size, type, flags, def index, scale.
type Entry = (u16, u16, u16, u8, u8, u16, i8);

fn fields(out: &mut Vec<u8>, entries: &[(Entry, &str)]) {
    out.extend((entries.len() as u16).to_le_bytes());
    for ((id, offset, size, type_id, flags, def_index, scale), _) in entries {
        for number in [id, offset, size] {
            out.extend(number.to_le_bytes());
        }
        out.extend([*type_id, *flags]);
        out.extend(def_index.to_le_bytes());
        out.push(*scale as u8);
        out.extend([0; 5]);
    }
    for (_, text) in entries {
        name(out, text);
    }
}

fn section(out: &mut Vec<u8>, body: &[u8]) {
    out.extend((body.len() as u16 + 2).to_le_bytes());
    out.extend(body);
}

const RECORD: [(Entry, &str); 6] = [
    ((1, 0, 24, TEXT, 0, 0, 0), "hd"),
    ((2, 24, 8, DECIMAL, 0, 0, -9), "price"),
    ((3, 32, 16, STRUCT, 0, 0, 0), "level"),
    ((9, 48, 8, SYMBOL, 0, 0, 0), "raw_symbol"),
    ((4, 56, 1, 13, 64, 0, 0), "side"),
    ((0, 57, 7, PADDING, 0, 0, 0), "_pad"),
];

/// One record of `record` fields, one struct and one label def.
fn layout(record: &[(Entry, &str)]) -> Vec<u8> {
    let mut out = vec![7, 0, 1, 0];
    let mut body = vec![0xA0, 1, 3, 0, 56, 0];
    body.extend(0x1122_3344_5566_7788u64.to_le_bytes());
    name(&mut body, "TradeMsg");
    fields(&mut body, record);
    section(&mut out, &body);
    out.extend([1, 0]);
    let mut body = vec![16, 0];
    name(&mut body, "Level");
    fields(&mut body, &[((1, 0, 8, U64, 0, 0, 0), "bid"), ((2, 8, 8, U64, 0, 0, 0), "größe")]);
    section(&mut out, &body);
    out.extend([1, 0]);
    let mut body = Vec::new();
    name(&mut body, "Side");
    body.extend([2, 0]);
    body.extend([65, 0]);
    name(&mut body, "Ask");
    body.extend([66, 0]);
    name(&mut body, "Bid");
    section(&mut out, &body);
    out
}

fn verdict(bytes: &[u8], width: u16) -> Result<(), Refusal> {
    Layout::read(bytes, width, &plain(), &mut Tables::default()).map(|_| ())
}

#[test]
fn every_part_is_read_with_its_name() {
    let (bytes, mut table) = (layout(&RECORD), Tables::default());
    let layout = Layout::read(&bytes, 8, &plain(), &mut table).unwrap();
    assert_eq!((layout.version(), layout.rows().len()), (7, 1 + 12 + 1 + 4 + 1 + 2));
    let record = layout.record_layouts().next().unwrap();
    assert_eq!((record.name, record.rtype, record.schema, record.base_record_size), ("TradeMsg", 0x1A0, 3, 56));
    assert_eq!(record.layout_hash, 0x1122_3344_5566_7788);
    let read: Vec<(Entry, &str)> = record
        .fields()
        .map(|f| ((f.field_id, f.offset, f.size, f.type_id, f.flags, f.def_index, f.scale), f.name))
        .collect();
    assert_eq!(read, RECORD);
    let item = layout.struct_layouts().next().unwrap();
    assert_eq!((item.name, item.size, item.fields().count()), ("Level", 16, 2));
    let second = item.fields().nth(1).unwrap();
    let wanted =
        Field { name: "größe", field_id: 2, offset: 8, size: 8, type_id: U64, flags: 0, def_index: 0, scale: 0 };
    assert_eq!(second, wanted);
    let labels: Vec<_> = layout.label_defs().flat_map(|def| def.labels().collect::<Vec<_>>()).collect();
    assert_eq!(labels.iter().map(|l| (l.code, l.name)).collect::<Vec<_>>(), [(65, "Ask"), (66, "Bid")]);
}

#[test]
fn names_are_parts_of_the_layout_itself() {
    let (bytes, mut table) = (layout(&RECORD), Tables::default());
    let layout = Layout::read(&bytes, 8, &plain(), &mut table).unwrap();
    let own = bytes.as_ptr_range();
    let mut named = 0;
    for (i, row) in layout.rows().enumerate() {
        match layout.name(i) {
            Ok(name) => {
                assert!(own.contains(&name.as_ptr()), "row {i}");
                assert_eq!(name.as_ptr() as usize - own.start as usize, row[1] as usize);
                named += 1;
            }
            Err(refusal) => assert_eq!((refusal.number(), row[0]), (90, 11)),
        }
    }
    assert_eq!(named, 13);
    let past = layout.rows().len();
    assert_eq!(layout.name(past).expect_err("a refusal").number(), 90);
    assert_eq!(layout.name(usize::MAX).expect_err("a refusal").number(), 90);
}

#[test]
fn what_is_read_is_written_back() {
    let (bytes, mut table) = (layout(&RECORD), Tables::default());
    let layout = Layout::read(&bytes, 8, &plain(), &mut table).unwrap();
    let mut output = vec![0xEE; bytes.len() + 3];
    let length = write_layout(layout.numbers(), &bytes, layout.version(), 8, &plain(), &mut output).unwrap();
    assert_eq!(output[..length], bytes);
    assert_eq!(output[length..], [0xEE; 3]);
    for short in [0, 1, bytes.len() - 1] {
        let mut output = vec![0xEE; short];
        let answer = write_layout(layout.numbers(), &bytes, 7, 8, &plain(), &mut output);
        assert_eq!(answer.expect_err("a refusal").number(), 96);
        assert!(output.iter().all(|&b| b == 0xEE));
    }
}

#[test]
fn the_writer_refuses_each_kind_of_bad_rows_and_leaves_the_output() {
    let (bytes, mut table) = (layout(&RECORD), Tables::default());
    let good = Layout::read(&bytes, 8, &plain(), &mut table).unwrap().numbers().to_vec();
    let row = |kind: u32| good.chunks(9).position(|r| r[0] == kind).unwrap() * 9;
    let mut text = bytes.clone();
    text.extend([0xFF; 300]);
    let long = bytes.len() as u32;
    // (number, places to change)
    let cases: [(u32, Vec<(usize, u32)>); 13] = [
        (90, vec![(row(10), 13)]),
        (90, vec![(row(10) + 6, 5)]),
        (90, vec![(row(10) + 1, 100_000)]),
        (90, vec![(row(11) + 8, 1)]),
        (90, vec![(row(11) + 4, 256)]),
        (90, vec![(row(15) + 3, 65536)]),
        (92, vec![(row(12) + 1, long), (row(12) + 2, 256)]),
        (93, vec![(row(12) + 1, long), (row(12) + 2, 255)]),
        (93, vec![(row(12) + 1, 0), (row(12) + 2, 4)]),
        (95, vec![(row(15) + 3, 66)]),
        (95, vec![(row(15) + 3, 67)]),
        (62, vec![(row(10) + 3, 0x4E)]),
        (60, vec![(row(13) + 3, 17)]),
    ];
    for (number, changes) in cases {
        let mut rows = good.clone();
        for &(place, value) in &changes {
            rows[place] = value;
        }
        let mut output = vec![0xEE; 4096];
        let answer = write_layout(&rows, &text, 7, 8, &plain(), &mut output);
        assert_eq!(answer.expect_err("a refusal").number(), number, "{changes:?}");
        assert!(output.iter().all(|&b| b == 0xEE), "output after {number}");
    }
    let mut output = vec![0xEE; 4096];
    let answer = write_layout(&good[..good.len() - 1], &text, 7, 8, &plain(), &mut output);
    assert_eq!(answer.expect_err("a refusal").number(), 90, "a length not of nine");
    let answer = write_layout(&good[..good.len() - 9], &text, 7, 8, &plain(), &mut output);
    assert_eq!(answer.expect_err("a refusal").number(), 90, "a label less than its def says");
    let answer = write_layout(&good, &text, 7, 9, &plain(), &mut output);
    assert_eq!(answer.expect_err("a refusal").number(), 77, "another symbol width");
    assert!(output.iter().all(|&b| b == 0xEE));
}

#[test]
fn each_rule_has_its_number() {
    let bend = |i: usize, change: &dyn Fn(&mut Entry)| {
        let mut record = RECORD;
        change(&mut record[i].0);
        verdict(&layout(&record), 8).map_err(Refusal::number)
    };
    assert_eq!(verdict(&layout(&RECORD), 8), Ok(()));
    assert_eq!(bend(1, &|e| e.0 = 1), Err(71));
    assert_eq!(bend(2, &|e| e.5 = 1), Err(73));
    assert_eq!(bend(4, &|e| e.5 = 1), Err(73));
    assert_eq!(bend(4, &|e| e.5 = 65535), Ok(()));
    assert_eq!(bend(1, &|e| e.1 = 25), Err(74));
    assert_eq!(bend(1, &|e| e.2 = 0), Err(75));
    assert_eq!(bend(1, &|e| e.6 = -8), Err(76));
    assert_eq!(bend(3, &|e| e.2 = 7), Err(77));
    assert_eq!(bend(5, &|e| e.2 = 65535), Err(78));
    assert_eq!(bend(4, &|e| e.4 = 0), Err(79));
    assert_eq!(bend(5, &|e| e.4 = 64), Ok(()), "padding is free of 79");
    assert_eq!(bend(2, &|e| e.2 = 32), Err(80));
    assert_eq!(bend(1, &|e| e.2 = 7), Err(81));
    assert_eq!(bend(2, &|e| e.2 = 15), Err(81));
    assert_eq!(bend(5, &|e| e.1 = 58), Err(83));
    let without: Vec<_> = RECORD.iter().copied().filter(|f| f.1 != "raw_symbol").collect();
    assert_eq!(verdict(&layout(&without), 8).map_err(Refusal::number), Err(82));
    assert_eq!(verdict(&layout(&RECORD), 9).map_err(Refusal::number), Err(77));
}

#[test]
fn fields_may_stand_in_any_order() {
    let mut record = RECORD;
    record.reverse();
    assert_eq!(verdict(&layout(&record), 8), Ok(()));
    record.swap(1, 4);
    assert_eq!(verdict(&layout(&record), 8), Ok(()));
}

#[test]
fn a_layout_cut_anywhere_is_refused_by_50_where_the_cut_part_begins() {
    let bytes = layout(&RECORD);
    // Version, then three times a count, a section's length and its body.
    let mut starts = vec![0];
    let mut at = 2;
    for _ in 0..3 {
        starts.extend([at, at + 2, at + 4]);
        at += 2 + u16::from_le_bytes([bytes[at + 2], bytes[at + 3]]) as usize;
    }
    assert_eq!(at, bytes.len());
    for cut in 0..bytes.len() {
        let place = *starts.iter().rfind(|&&start| start <= cut).expect("a part");
        let refusal = verdict(&bytes[..cut], 8).expect_err("a layout that is cut");
        assert_eq!((refusal.number(), refusal.place()), (50, Some(place)), "{cut} bytes");
    }
}

/// A version 4 block with that layout, and symbology bytes.
fn block4(layout: &[u8], symbology: &[u8]) -> Vec<u8> {
    let mut out = b"XNAS.ITCH".to_vec();
    out.resize(38, 0);
    out.extend([0xFF, 0xFF]);
    out.extend([0; 24]);
    out.extend([255, 1, 1, 8, 0]);
    out.resize(100, 0);
    out.extend((layout.len() as u32).to_le_bytes());
    out.extend(layout);
    out.extend((symbology.len() as u32).to_le_bytes());
    out.extend(symbology);
    out
}

/// The verdict on a block: the number and the place of its refusal.
fn block(version: u8, bytes: &[u8]) -> Result<(), (u32, Option<usize>)> {
    let mut tables = Tables::default();
    let read = Block::read(version, bytes, &plain(), &mut tables);
    read.map(|_| ()).map_err(|refusal| (refusal.number(), refusal.place()))
}

#[test]
fn a_version_4_block_has_a_layout() {
    let inner = layout(&RECORD);
    let bytes = block4(&inner, &[0; 16]);
    let mut tables = Tables::default();
    let block = Block::read(4, &bytes, &plain(), &mut tables).unwrap();
    let fields = block.fields();
    assert_eq!(block.dataset(), "XNAS.ITCH");
    assert_eq!((fields.schema, fields.end, fields.limit, fields.stype_in), (None, None, None, None));
    assert_eq!((fields.ts_out, fields.symbol_cstr_len, fields.layout_version), (true, 8, Some(7)));
    let layout = block.layout().unwrap();
    assert_eq!((layout.bytes(), layout.version()), (&inner[..], 7));
    assert_eq!(layout.record_layouts().map(|r| r.name).collect::<Vec<_>>(), ["TradeMsg"]);
    assert_eq!(layout.struct_layouts().map(|s| s.name).collect::<Vec<_>>(), ["Level"]);
}

#[test]
fn version_4_wants_a_layout_and_a_symbology_that_is_spanned() {
    let inner = layout(&RECORD);
    // Where the symbology's length stands, and where its section begins.
    let (length, section) = (104 + inner.len(), 108 + inner.len());
    assert_eq!(block(4, &block4(&[], &[0; 16])), Err((26, Some(100))));
    for longer in [17, 18, 40] {
        assert_eq!(block(4, &block4(&inner, &vec![0; longer])), Err((28, Some(section + 16))), "{longer} bytes");
    }
    assert_eq!(block(4, &block4(&inner, &[0; 15])), Err((33, Some(section + 12))));
    let mut bytes = block4(&inner, &[0; 16]);
    bytes.extend([1, 2, 3]);
    assert_eq!(block(4, &bytes), Ok(()), "bytes after the section are ignored");
    bytes.truncate(bytes.len() - 4);
    assert_eq!(block(4, &bytes), Err((45, Some(section))));
    assert_eq!(block(4, &bytes[..section - 1]), Err((27, Some(length))));
    assert_eq!(block(4, &bytes[..length - 1]), Err((44, Some(104))));
    assert_eq!([5, 0].map(|version| block(version, &bytes)), [Err((11, Some(3))); 2]);
    assert_eq!(block(4, &bytes[..99]), Err((13, None)));
    assert_eq!(stream_of(4, &bytes).len(), bytes.len() + 8);
}

#[test]
fn a_layout_in_a_block_is_refused_at_the_same_byte_counted_from_the_block() {
    let bytes = layout(&RECORD);
    let mut bent = vec![bytes.clone(); bytes.len()];
    bent.iter_mut().enumerate().for_each(|(i, bytes)| bytes[i] ^= 0xFF);
    let mut refused = 0;
    for inner in bent.iter().map(|bytes| &bytes[..]).chain((1..bytes.len()).map(|cut| &bytes[..cut])) {
        let alone = verdict(inner, 8).map_err(|refusal| (refusal.number(), refusal.place()));
        let within = alone.map_err(|(number, place)| (number, place.map(|place| 104 + place)));
        assert_eq!(block(4, &block4(inner, &[0; 16])), within, "{inner:02x?}");
        refused += within.is_err_and(|(_, place)| place.is_some()) as usize;
    }
    assert!(refused > bytes.len(), "{refused} of {} have a place", 2 * bytes.len());
}
