// STAND-IN: src/layout/builders.rs is not in the text at hand.
use super::{FieldDef, LabelDef};
use crate::v4::fields::{Field, FieldType};
pub struct FieldDefBuilder(FieldDef);
impl FieldDefBuilder {
    pub fn new(field_id: u16, type_id: u8) -> Self { Self(FieldDef { field_id, offset: 0, size: 0, type_id, flags: 0, def_index: 0, scale: 0, _reserved: [0; 5] }) }
    pub fn offset(mut self, v: u16) -> Self { self.0.offset = v; self }
    pub fn size(mut self, v: u16) -> Self { self.0.size = v; self }
    pub fn flags(mut self, v: u8) -> Self { self.0.flags = v; self }
    pub fn def_index(mut self, v: u16) -> Self { self.0.def_index = v; self }
    pub fn scale(mut self, v: i8) -> Self { self.0.scale = v; self }
    pub fn build(self) -> FieldDef { self.0 }
}
pub struct StreamLayoutBuilder;
pub struct StructLayoutBuilder<'a>(std::marker::PhantomData<&'a ()>);
pub struct RecordLayoutBuilder<'a>(std::marker::PhantomData<&'a ()>);
impl RecordLayoutBuilder<'_> {
    pub fn finish_base(&mut self) {}
    pub fn copy_field(&mut self, _: &FieldDef, _: &str, _: &[LabelDef]) {}
    pub fn field<T: FieldType>(&mut self, _: Field<T>, _: &str) {}
}
