//! After a NUL only NULs may follow, in the dataset and in every symbol: 29, 41, 42 and 43. So a name holds no NUL.
mod common;
use common::{hex, plain, stream_of};
use dbn_start::{Block, Feed, Limits, Refusal, RefusalKind, Tables};

/// A text of a block: its first byte, its width, and its two refusals, each tried before the next.
#[derive(Debug, Clone, Copy)]
struct Text {
    start: usize,
    width: usize,
    kinds: [RefusalKind; 2],
}

const DATASET: [RefusalKind; 2] = [RefusalKind::DatasetNotUtf8, RefusalKind::DatasetAfterNul];
const LIST: [RefusalKind; 2] = [RefusalKind::ListNotUtf8, RefusalKind::ListAfterNul];
const RAW: [RefusalKind; 2] = [RefusalKind::RawSymbolNotUtf8, RefusalKind::RawSymbolAfterNul];
const INTERVAL: [RefusalKind; 2] = [RefusalKind::SymbolNotUtf8, RefusalKind::SymbolAfterNul];

/// A block that is put together, and where its texts are.
struct Made {
    bytes: Vec<u8>,
    texts: Vec<Text>,
}

impl Made {
    fn text(&mut self, width: usize, kinds: [RefusalKind; 2]) {
        self.texts.push(Text { start: self.bytes.len(), width, kinds });
        self.bytes.push(b'A');
        self.bytes.resize(self.bytes.len() + width - 1, 0);
    }

    /// A block with one symbol in each list and one mapping with two intervals. Every text is an A.
    fn new(version: u8) -> Self {
        let (dataset, width) = match version {
            1 => (16, 22),
            4 => (38, 71),
            _ => (16, 9),
        };
        let mut made = Self { bytes: Vec::new(), texts: Vec::new() };
        made.text(dataset, DATASET);
        made.bytes.resize(100, 0);
        if version > 1 {
            made.bytes[dataset + 29] = width as u8;
        }
        made.bytes.extend(hex(if version == 4 { "08000000 0100000000000000" } else { "00000000" }));
        if version == 4 {
            made.bytes.extend((36 + 6 * width as u32).to_le_bytes());
        }
        for _ in 0..3 {
            made.bytes.extend([1, 0, 0, 0]);
            made.text(width, LIST);
        }
        made.bytes.extend([1, 0, 0, 0]);
        made.text(width, RAW);
        made.bytes.extend([2, 0, 0, 0]);
        for _ in 0..2 {
            made.bytes.extend([101, 0, 0, 0, 101, 0, 0, 0]);
            made.text(width, INTERVAL);
        }
        made
    }

    /// The refusal of this block with some bytes changed, which is also that of its stream.
    fn refused(&self, version: u8, changes: &[(usize, u8)]) -> (RefusalKind, Option<usize>) {
        let mut bytes = self.bytes.clone();
        changes.iter().for_each(|&(place, byte)| bytes[place] = byte);
        let told = |refusal: Refusal| (refusal.kind(), refusal.place());
        let read = Block::read(version, &bytes, &plain(), &mut Tables::new(0)).map(|_| ()).map_err(told);
        let mut feed = Feed::new(Limits { bytes: 4096, rows: 0 }).with_sheet(plain());
        assert_eq!(feed.feed(&stream_of(version, &bytes)).map(|_| ()).map_err(told), read, "a block and its stream");
        read.expect_err("a refusal")
    }
}

/// Every name of a block: the dataset, the lists' symbols, raw symbols and intervals' symbols.
fn names<'a>(block: &Block<'a>) -> Vec<&'a str> {
    let lists = block.symbols().chain(block.partial()).chain(block.not_found());
    let mapped = block.mappings().flat_map(|mapping| {
        std::iter::once(mapping.raw_symbol).chain(mapping.intervals().map(|one| one.symbol)).collect::<Vec<_>>()
    });
    std::iter::once(block.dataset()).chain(lists).chain(mapped).collect()
}

#[test]
fn a_letter_after_a_nul_is_refused_at_the_text_by_its_own_number() {
    for version in 1..=4 {
        let made = Made::new(version);
        assert_eq!(made.refused(version, &[]), (RefusalKind::TableShort, None), "six rows, and no table");
        for &Text { start, width, kinds: [not_utf8, after_nul] } in &made.texts {
            for place in start + 2..start + width {
                assert_eq!(made.refused(version, &[(place, b'x')]), (after_nul, Some(start)));
                assert_eq!(made.refused(version, &[(place, 1)]), (after_nul, Some(start)), "any byte but NUL");
                assert_eq!(made.refused(version, &[(place, 0xFF)]), (not_utf8, Some(start)), "UTF-8 is tried first");
            }
            let first_byte = [(start, 0), (start + width - 1, b'x')];
            assert_eq!(made.refused(version, &first_byte), (after_nul, Some(start)), "NULs, then a letter");
        }
    }
}

#[test]
fn the_first_text_in_the_stream_s_order_decides() {
    for version in 1..=4 {
        let made = Made::new(version);
        for two in made.texts.windows(2) {
            let [one, next] = two else { unreachable!("windows of two") };
            let broken = |after: u8, next_after: u8| {
                made.refused(version, &[(one.start + 4, after), (next.start + next.width - 1, next_after)])
            };
            assert_eq!(
                broken(b'x', 0xFF),
                (one.kinds[1], Some(one.start)),
                "both rules of a text before the next text"
            );
            assert_eq!(broken(b'x', b'x'), (one.kinds[1], Some(one.start)));
            assert_eq!(broken(0, 0xFF), (next.kinds[0], Some(next.start)));
            assert_eq!(broken(0, b'x'), (next.kinds[1], Some(next.start)));
        }
    }
}

#[test]
fn other_refusals_come_before_and_after_as_the_bytes_stand() {
    let made = Made::new(2);
    let [dataset, first, .., raw, _, last] = made.texts[..] else { panic!("seven texts") };
    let broken = |text: Text, place: usize, byte: u8| made.refused(2, &[(text.start + 4, b'x'), (place, byte)]).0;
    for place in [17, 42, 43, 103, 100] {
        assert_eq!(broken(dataset, place, 0xFE), RefusalKind::DatasetAfterNul, "before 21, 22, 23, 44 and 25");
    }
    assert_eq!(broken(first, 100, 1), RefusalKind::LayoutBelow4, "the layout comes before the symbology");
    assert_eq!(broken(first, first.start - 1, 1), RefusalKind::ListCountLarge, "and a count before its symbols");
    assert_eq!(broken(raw, raw.start + raw.width + 3, 1), RefusalKind::RawSymbolAfterNul, "the intervals come after");
    assert_eq!(broken(last, last.start - 8, 0), RefusalKind::StartDate, "and the dates before the symbol");
    assert_eq!(broken(last, last.start - 4, 0), RefusalKind::EndDate);
    // One byte that the contents do not reach.
    let mut longer = Made::new(4);
    let length = 36 + 6 * 71;
    assert_eq!(longer.bytes[112..116], (length as u32).to_le_bytes());
    longer.bytes.push(0);
    longer.bytes[112..116].copy_from_slice(&(length as u32 + 1).to_le_bytes());
    assert_eq!(longer.refused(4, &[]), (RefusalKind::SymbologyNotSpanned, Some(116 + length)));
    let last = longer.texts[6].start;
    assert_eq!(longer.refused(4, &[(last + 70, b'x')]), (RefusalKind::SymbolAfterNul, Some(last)));
}

#[test]
fn an_accepted_name_holds_no_nul_and_with_nuls_to_its_width_is_the_text() {
    for version in 1..=4 {
        let Made { mut bytes, texts } = Made::new(version);
        // NULs only, the full width, and all lengths between, in turn.
        for shift in 0..80 {
            for (i, text) in texts.iter().enumerate() {
                let length = (shift + 7 * i) % (text.width + 1);
                let (name, rest) = bytes[text.start..][..text.width].split_at_mut(length);
                name.fill(b'A' + i as u8);
                rest.fill(0);
            }
            let mut tables = Tables::default();
            let block = Block::read(version, &bytes, &plain(), &mut tables).expect("an accepted block");
            let names = names(&block);
            assert_eq!(names.len(), texts.len());
            for (name, text) in names.into_iter().zip(&texts) {
                assert!(!name.contains('\0'), "{name:?}");
                let whole = [name.as_bytes(), &vec![0; text.width - name.len()]].concat();
                assert_eq!(whole, bytes[text.start..][..text.width]);
            }
        }
    }
}

#[test]
fn old_letters_after_a_shorter_name_no_longer_make_two_names() {
    let mut made = Made::new(3);
    let symbol = made.texts[1];
    let text = &mut made.bytes[symbol.start..][..symbol.width];
    text[..7].copy_from_slice(b"ESZ4\0H3");
    let stops = text.iter().position(|&byte| byte == 0);
    let trims = text.iter().rposition(|&byte| byte != 0).map(|last| last + 1);
    assert_eq!((stops, trims), (Some(4), Some(7)), "two programs, two names");
    assert_eq!(made.refused(3, &[]), (RefusalKind::ListAfterNul, Some(symbol.start)));
}
