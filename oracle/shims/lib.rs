// STAND-IN: the crate root. restore.sh names the given files.
#![allow(dead_code, unused_imports, unexpected_cfgs, unused_variables, clippy::all)]
pub mod compat;
pub mod decode;
pub mod encode;
pub mod enums;
mod error;
pub mod layout;
pub mod metadata;
pub mod record;
pub mod v1;
pub mod v2;
pub mod v3;
pub mod v4;
pub use enums::{rtype, DbnVersion, SType, Schema, VersionUpgradePolicy};
pub use error::{Error, Result};
pub use metadata::{MappingInterval, Metadata, MetadataBuilder, SymbolMapping};
pub use record::{Record, RecordHeader, RecordMut, RecordRef, RecordRefMut, WithTsOut};

/// v3.rs: "the current DBN version 3"; encode/dbn/sync.rs START_OFFSET says versions 1 to 3.
pub const DBN_VERSION: u8 = 3;
/// Forced by the const assertions of metadata/lengths.rs.
pub const METADATA_FIXED_LEN: usize = 100;
/// Document 01: prelude of 8 bytes; lengths.rs asserts (8 + 38 + 2) % 8 == 0.
pub const METADATA_PRELUDE_LEN: usize = 8;
/// Only an upper bound of reserved_len is needed (encode/dbn/sync.rs).
pub const METADATA_RESERVED_LEN: usize = 53;
pub const NULL_SCHEMA: u16 = u16::MAX;
pub const NULL_STYPE: u8 = u8::MAX;
pub const NULL_LIMIT: u64 = 0;
pub const NULL_RECORD_COUNT: u64 = u64::MAX;
pub const UNDEF_TIMESTAMP: u64 = u64::MAX;
pub const MAX_RECORD_LEN: usize = 1024;

pub struct PitSymbolMap;
impl PitSymbolMap { pub fn from_metadata(_: &Metadata, _: time::Date) -> Result<Self> { Ok(Self) } }
pub struct TsSymbolMap;
impl TsSymbolMap { pub fn from_metadata(_: &Metadata) -> Result<Self> { Ok(Self) } }

/// The reader's own layout decode, for calls from outside.
pub fn layout_decode(bytes: &[u8], width: u16) -> Result<layout::StreamLayout> { layout::wire::decode(bytes, width) }
pub fn layout_encode(out: &mut Vec<u8>, l: &layout::StreamLayout) -> Result<()> { layout::wire::encode(out, l) }
pub fn iso8601(raw: u32) -> Result<time::Date> { decode::dbn::decode_iso8601(raw) }
