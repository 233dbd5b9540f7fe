// STAND-IN: src/encode/dbn.rs is not in the text at hand. Lengths as the given sync.rs writes them.
use crate::{metadata::MetadataLengths, Error, Metadata, RecordRef, Result};
mod sync;
pub use sync::{Encoder, MetadataEncoder};
const MAX_SLICES: usize = 1024;
const TS_OUT_LEN: u8 = 2;
fn check_pre_v4(m: &Metadata) -> Result<()> { if m.version < 4 { Ok(()) } else { Err(Error::encode("version 4")) } }
fn metadata_lengths(v: u8) -> Result<&'static MetadataLengths> { MetadataLengths::for_version(v).ok_or_else(|| Error::encode("unsupported version")) }
fn encode_layout(l: &MetadataLengths, m: &Metadata) -> Result<Vec<u8>> {
    let mut out = Vec::new();
    match (&m.layout, l.has_layout) {
        (Some(y), true) => crate::layout::wire::encode(&mut out, y)?,
        (None, true) => return Err(Error::encode("version 4 metadata without a layout")),
        _ => {}
    }
    Ok(out)
}
fn symbology_length(m: &Metadata) -> usize {
    let w = m.symbol_cstr_len;
    16 + w * (m.symbols.len() + m.partial.len() + m.not_found.len()) + m.mappings.iter().map(|x| w + 4 + x.intervals.len() * (w + 8)).sum::<usize>()
}
fn calc_length(l: &MetadataLengths, m: &Metadata, layout_len: usize) -> (u32, u32) {
    let n = crate::METADATA_FIXED_LEN + 4 + layout_len + if l.has_layout { 4 } else { 0 } + symbology_length(m);
    let pad = if l.should_pad_to_8 { (8 - n % 8) % 8 } else { 0 };
    ((n + pad) as u32, pad as u32)
}
fn write_records<W: std::io::Write>(w: &mut W, r: &[RecordRef]) -> std::io::Result<()> { for x in r { w.write_all(x.as_ref())?; } Ok(()) }
