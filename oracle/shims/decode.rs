// STAND-IN: src/decode.rs is not in the text at hand.
pub mod dbn;
pub trait FromLittleEndianSlice { fn from_le_slice(slice: &[u8]) -> Self; }
macro_rules! le { ($($t:ty)*) => { $( impl FromLittleEndianSlice for $t {
    fn from_le_slice(slice: &[u8]) -> Self { let (b, _) = slice.split_at(size_of::<$t>()); <$t>::from_le_bytes(b.try_into().unwrap()) }
} )* } }
le! { u16 u32 u64 }
