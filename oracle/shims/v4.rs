// STAND-IN: src/v4.rs is not in the text at hand.
use crate::{record::RecordHeaderKind, Error, Result};
pub mod fields;
pub mod layouts;
pub mod types;
pub const DBN_VERSION: u8 = 4;
/// A guess of the first 24 bytes: u16 length, u16 rtype at offset 2 (validate.rs: its low byte falls on the magic's 'N'),
/// u16 publisher, u64 instrument, u64 time (arguments of with_record_size in upgrade.rs).
#[repr(C)]
#[derive(Debug, Clone, Copy, PartialEq, Eq)]
pub struct RecordHeader { length: u16, pub rtype: u16, pub publisher_id: u16, _reserved: u16, pub instrument_id: u64, pub ts_event: u64, _tail: [u8; fields::SHEET_HEADER - 24] }
const _: () = assert!(size_of::<RecordHeader>() == fields::SHEET_HEADER);
impl RecordHeader {
    pub fn with_record_size(rtype: u16, publisher_id: u16, instrument_id: u64, ts_event: u64, size: usize) -> Result<Self> {
        let length = u16::try_from(size).map_err(|_| Error::decode("record too long"))?;
        Ok(Self { length, rtype, publisher_id, _reserved: 0, instrument_id, ts_event, _tail: [0; fields::SHEET_HEADER - 24] })
    }
}
impl RecordHeaderKind for RecordHeader {
    type RType = u16;
    const HEADER_LEN: usize = size_of::<Self>();
    fn frame_len(data: &[u8]) -> Result<usize> { Ok(u16::from_le_bytes([data[0], data[1]]) as usize) }
}
