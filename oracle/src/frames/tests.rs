//! What docs/DIFFERENCES.md says of records, with its smallest inputs.
use super::*;
use dbn::{
    decode::dbn::fsm::{DbnFsm, ProcessResult},
    VersionUpgradePolicy,
};

/// Version 2's least start, 128 bytes, and these records, uncut, for a store of so many bytes.
fn after_a_start(records: &[u8], store: usize) -> Made {
    let mut bytes = gen::stream_of(2, &[0; 120]);
    let start = bytes.len();
    bytes.extend(records);
    Made { version: 2, bytes, start, cuts: Vec::new(), store }
}

/// The decoder without a start, with a buffer of so many bytes.
fn decoder(room: usize) -> DbnFsm {
    let builder = DbnFsm::builder().upgrade_policy(VersionUpgradePolicy::AsIs).skip_metadata(true).buffer_size(room);
    builder.input_dbn_version(Some(2)).and_then(|b| b.build()).expect("a state machine")
}

fn header(words: u8) -> [u8; 16] {
    let mut header = [0; 16];
    header[0] = words;
    header
}

#[test]
fn the_crate_has_no_store_and_goes_on() {
    for (records, store, needed) in [(&[][..], 15, 16), (&header(5)[..], 16, 4)] {
        let made = after_a_start(records, store);
        assert_eq!(made.paper(store).end(), Framed::Refused(101));
        for way in Way::ALL {
            let told = of_crate::stream(&made, way).expect("an answer");
            assert_eq!((told.end(), &told.left[..]), (Framed::Needs(needed), records), "{way:?}");
        }
    }
}

#[test]
fn a_buffer_of_the_crate_that_is_too_short_has_no_space_and_no_error() {
    let mut fsm = decoder(16);
    fsm.space().copy_from_slice(&header(5));
    fsm.fill(16);
    for _ in 0..3 {
        assert!(matches!(fsm.process(), ProcessResult::ReadMore(4)));
        assert!(fsm.space().is_empty());
    }
    assert!(decoder(0).space().is_empty(), "a buffer of no bytes");
    assert_eq!(of_crate::in_buffer(2, &header(5), 16), (Vec::new(), true));
    assert_eq!(of_crate::in_buffer(2, &header(5), 24), (Vec::new(), false));
}

#[test]
fn a_length_below_a_header_ends_both() {
    for words in 0..4 {
        let made = after_a_start(&[&header(4)[..], &header(words), &header(4)].concat(), LONGEST);
        let paper = made.paper(LONGEST);
        assert_eq!((paper.frames.len(), paper.end()), (1, Framed::Refused(100)));
        for way in Way::ALL {
            assert_eq!(of_crate::stream(&made, way).as_ref(), Ok(&paper), "{way:?}");
        }
    }
}

#[test]
fn the_crate_buffers_past_a_record_and_leaves_the_next_at_a_multiple_of_four() {
    let mut fsm = decoder(64);
    fsm.write_all(&[&header(5)[..], &[0; 4], &header(4)].concat());
    let mut place = || match fsm.process() {
        ProcessResult::Record(()) => fsm.last_record().expect("a record").as_ref().as_ptr() as usize % 8,
        other => panic!("{other:?}"),
    };
    assert_eq!([place(), place()], [0, 4]);
}
