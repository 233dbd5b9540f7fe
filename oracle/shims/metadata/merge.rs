// STAND-IN: src/metadata/merge.rs is not in the text at hand.
use super::Metadata;
pub struct MetadataMerger(Metadata);
impl MetadataMerger {
    pub fn new(m: Metadata) -> Self { Self(m) }
    pub fn merge(&mut self, _: Metadata) -> crate::Result<()> { Ok(()) }
    pub fn finalize(self) -> Metadata { self.0 }
}
