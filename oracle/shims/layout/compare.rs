// STAND-IN: src/layout/compare.rs is not in the text at hand; with an empty compiled layout it is never called.
use super::{RecordLayout, StreamLayout, Verdict};
pub fn verdict(_: &StreamLayout, _: &RecordLayout, _: &StreamLayout) -> Verdict { Verdict::Compiled }
