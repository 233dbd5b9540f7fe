// STAND-IN: src/v4/types.rs is not in the text at hand.
use super::fields::{self, FieldType};
pub struct Decimal;
impl FieldType for Decimal { const TYPE_ID: u8 = fields::DECIMAL_ID; }
pub struct Symbol;
impl FieldType for Symbol { const TYPE_ID: u8 = fields::SYMBOL_ID; }
