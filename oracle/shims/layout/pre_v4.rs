// STAND-IN: src/layout/pre_v4.rs is not in the text at hand.
use super::{RecordLayout, StreamLayout};
pub fn stream_layout(_: u8, _: bool) -> StreamLayout { crate::v4::layouts::default_layout().clone() }
pub fn record_layouts(_: u8, _: bool) -> Vec<RecordLayout> { Vec::new() }
