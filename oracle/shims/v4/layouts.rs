// STAND-IN: src/v4/layouts.rs is not in the text at hand. Both checks built on it are out of scope and become no-ops.
use super::{fields::Field, types::Symbol};
use crate::layout::{RecordLayoutBuilder, StreamLayout};
static EMPTY: StreamLayout = StreamLayout { stream_layout_version: 0, record_layouts: Vec::new(), struct_layouts: Vec::new(), label_defs: Vec::new() };
pub fn default_layout() -> &'static StreamLayout { &EMPTY }
pub fn required_fields(_rtype: u16) -> &'static [(Field<Symbol>, &'static str)] { &[] }
pub fn compiled_layout(_f: impl FnMut(u16, &mut RecordLayoutBuilder<'_>)) -> StreamLayout { EMPTY.clone() }
