//! The trader's complaint: one continuous symbol with four intervals must come back as one, however the stream is cut.
mod common;
use common::{capture, INTERVALS};
use dbn_start::{Fed, Feed, Limits, Refusal, RefusalKind, Step};

/// Holds a finished feed to what the stream carries.
fn one_contract(feed: &Feed) {
    let block = feed.block().expect("a block");
    assert_eq!((block.version(), block.dataset()), (2, "GLBX.MDP3"));
    let fields = block.fields();
    assert_eq!((fields.schema, fields.stype_in, fields.stype_out), (Some(0), Some(3), 0));
    assert_eq!((fields.start, fields.end), (1_672_531_200_000_000_000, Some(1_700_000_000_000_000_000)));
    assert_eq!((fields.limit, fields.ts_out, fields.symbol_cstr_len, fields.layout_version), (None, false, 71, None));
    assert_eq!(block.symbols().collect::<Vec<_>>(), ["ES.c.0"]);
    assert_eq!((block.partial().count(), block.not_found().count()), (0, 0));
    assert!(block.layout().is_none());
    let mappings: Vec<_> = block.mappings().collect();
    assert_eq!(mappings.len(), 1);
    assert_eq!(mappings[0].raw_symbol, "ES.c.0");
    let dated = mappings[0].intervals().map(|i| (i.start_date.yyyymmdd(), i.end_date.yyyymmdd(), i.symbol));
    assert_eq!(dated.collect::<Vec<_>>(), INTERVALS);
    let days = mappings[0].intervals().map(|i| i.end_date - i.start_date);
    assert_eq!(days.collect::<Vec<_>>(), [75, 91, 91, 91]);
    assert!(block.intervals().eq(mappings[0].intervals()));
    assert!(block.intervals().all(|interval| interval.mapping().raw_symbol == "ES.c.0"));
}

/// Feeds the pieces between the cuts. Every count needed is what is left of the stage.
fn fed(bytes: &[u8], cuts: &[usize]) -> Feed {
    let mut feed = Feed::new(Limits { bytes: 4096, rows: 6 });
    let mut at = 0;
    for &cut in cuts.iter().chain([&bytes.len()]) {
        let piece = &bytes[at..cut];
        at = cut;
        let step = match at {
            _ if at == bytes.len() => Step::Done,
            0..8 => Step::Needs(8 - at),
            _ => Step::Needs(bytes.len() - at),
        };
        assert_eq!(feed.feed(piece), Ok(Fed { taken: piece.len(), step }), "at byte {at}");
        assert_eq!(feed.held(), &bytes[..at]);
        assert_eq!(feed.block().is_some(), step == Step::Done);
    }
    feed
}

#[test]
fn four_pieces_cut_inside_the_intervals() {
    let (bytes, cuts) = capture();
    one_contract(&fed(&bytes, &cuts));
}

#[test]
fn every_single_cut() {
    let (bytes, _) = capture();
    for cut in 0..=bytes.len() {
        one_contract(&fed(&bytes, &[cut]));
    }
}

#[test]
fn every_pair_of_cuts_in_the_last_two_intervals() {
    let (bytes, cuts) = capture();
    for first in cuts[2] - 80..bytes.len() {
        for second in first..bytes.len() {
            one_contract(&fed(&bytes, &[first, second]));
        }
    }
}

#[test]
fn byte_by_byte() {
    let (bytes, _) = capture();
    let every: Vec<usize> = (0..bytes.len()).collect();
    one_contract(&fed(&bytes, &every));
}

#[test]
fn bytes_after_the_block_are_not_taken() {
    let (mut bytes, _) = capture();
    let whole = bytes.len();
    bytes.extend([7; 40]);
    let mut feed = Feed::new(Limits { bytes: 4096, rows: 6 });
    assert_eq!(feed.feed(&bytes), Ok(Fed { taken: whole, step: Step::Done }));
    one_contract(&feed);
    assert_eq!(feed.feed(&bytes[whole..]), Ok(Fed { taken: 0, step: Step::Done }));
    one_contract(&feed);
}

#[test]
fn a_start_beyond_the_limit_is_refused_before_its_bytes_come() {
    let (bytes, _) = capture();
    let told = |bytes: &[u8], limit: usize| {
        let mut feed = Feed::new(Limits { bytes: limit, rows: 6 });
        feed.feed(bytes).map(|fed| fed.step).map_err(Refusal::kind)
    };
    assert_eq!(told(&bytes[..8], bytes.len() - 1), Err(RefusalKind::StoreShort));
    assert_eq!(told(&bytes[..8], bytes.len()), Ok(Step::Needs(bytes.len() - 8)));
    let huge = [0x44, 0x42, 0x4E, 2, 255, 255, 255, 255];
    assert_eq!(told(&huge, 1 << 20), Err(RefusalKind::StoreShort));
    assert_eq!(told(&huge, usize::MAX), Ok(Step::Needs(u32::MAX as usize)));
}
