// STAND-IN: src/encode.rs is not in the text at hand.
use crate::{RecordRef, Result};
pub mod dbn;
pub trait DbnEncodable: AsRef<[u8]> + std::fmt::Debug {}
pub trait EncodeRecord {
    fn encode_record<R: DbnEncodable>(&mut self, record: &R) -> Result<()>;
    fn encode_records<R: DbnEncodable>(&mut self, records: &[R]) -> Result<()>;
    fn flush(&mut self) -> Result<()>;
}
pub trait EncodeRecordRef {
    fn encode_record_ref(&mut self, record: RecordRef) -> Result<()>;
    fn encode_record_refs(&mut self, records: &[RecordRef]) -> Result<()>;
    unsafe fn encode_record_ref_ts_out(&mut self, record: RecordRef, ts_out: bool) -> Result<()>;
    fn encode_record_ref_with_ts_out(&mut self, record: RecordRef, ts_out: u64) -> Result<()>;
    fn encode_record_refs_with_ts_out(&mut self, records: &[RecordRef], ts_out: u64) -> Result<()>;
}
pub trait EncodeDbn {}
pub(crate) mod io_utils {
    use std::io::{self, IoSlice, Write};
    pub fn write_all_vectored<W: Write>(w: &mut W, s: &mut [IoSlice<'_>]) -> io::Result<()> { for x in s { w.write_all(x)?; } Ok(()) }
}
