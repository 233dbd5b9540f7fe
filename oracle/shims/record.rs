// STAND-IN: record.rs is given, but leans on seven missing modules and the macro crate. What records hold is out of scope.
use crate::{v3, Error, Result};
use std::marker::PhantomData;
/// record.rs, RecordHeader: the same fields and widths (16 bytes).
#[repr(C)]
#[derive(Debug, Clone, Copy, PartialEq, Eq)]
pub struct RecordHeader { pub(crate) length: u8, pub rtype: u8, pub publisher_id: u16, pub instrument_id: u32, pub ts_event: u64 }
impl RecordHeader { pub fn record_size(&self) -> usize { self.length as usize * 4 } }
pub trait RecordHeaderKind: Sized + Copy + std::fmt::Debug + 'static {
    type RType;
    const HEADER_LEN: usize;
    fn frame_len(data: &[u8]) -> Result<usize>;
}
impl RecordHeaderKind for RecordHeader {
    type RType = u8;
    const HEADER_LEN: usize = 16;
    /// A guess of the missing text: record.rs says that the length is in 32-bit words, and fsm.rs that this can refuse.
    fn frame_len(data: &[u8]) -> Result<usize> {
        let n = data[0] as usize * 4;
        if n < 16 { Err(Error::decode("record shorter than its header")) } else { Ok(n) }
    }
}
pub trait HasRType {}
pub trait Record: AsRef<[u8]> {
    type Header: RecordHeaderKind;
    fn raw_rtype(&self) -> <Self::Header as RecordHeaderKind>::RType;
}
pub trait RecordMut {}
#[derive(Debug, Clone, Copy)]
pub struct RecordRef<'a, H = RecordHeader> { data: &'a [u8], _h: PhantomData<H> }
impl<'a, H> RecordRef<'a, H> {
    pub unsafe fn new(data: &'a [u8]) -> Self { Self { data, _h: PhantomData } }
    pub fn header(&self) -> &'a H { unsafe { &*self.data.as_ptr().cast::<H>() } }
    pub fn record_size(&self) -> usize { self.data.len() }
    pub fn get<T>(&self) -> Option<&'a T> { None }
}
impl<H> AsRef<[u8]> for RecordRef<'_, H> { fn as_ref(&self) -> &[u8] { self.data } }
pub struct RecordRefMut<'a, H = RecordHeader> { data: &'a mut [u8], _h: PhantomData<H> }
impl<'a, H> RecordRefMut<'a, H> { pub unsafe fn new(data: &'a mut [u8]) -> Self { Self { data, _h: PhantomData } } }
#[repr(C)]
pub struct WithTsOut<T: HasRType> { pub rec: T, pub ts_out: u64 }
impl<T: HasRType> WithTsOut<T> { pub fn new(rec: T, ts_out: u64) -> Self { Self { rec, ts_out } } }
impl<T: HasRType> AsRef<[u8]> for WithTsOut<T> { fn as_ref(&self) -> &[u8] { unsafe { as_u8_slice(self) } } }
pub(crate) unsafe fn as_u8_slice<T: Sized>(t: &T) -> &[u8] { std::slice::from_raw_parts((t as *const T).cast(), size_of::<T>()) }
/// Stands for every versioned message type; never reached by metadata, nor by records that are decoded as stored.
#[derive(Debug, Clone)]
#[repr(C)]
pub struct DummyMsg { pub hd: RecordHeader }
impl HasRType for DummyMsg {}
impl RecordMut for DummyMsg {}
impl AsRef<[u8]> for DummyMsg { fn as_ref(&self) -> &[u8] { unsafe { as_u8_slice(self) } } }
impl From<&DummyMsg> for DummyMsg { fn from(d: &DummyMsg) -> Self { d.clone() } }
