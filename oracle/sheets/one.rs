// The special ids of the first made sheet. The crate's own ids are not in the text at hand.
pub const PADDING_ID: u8 = 0;
pub const STRUCT_ID: u8 = 1;
pub const SYMBOL_ID: u8 = 2;
pub const DECIMAL_ID: u8 = 4;
pub const FLAG_IS_EXTENSION: u8 = 64;
pub const SHEET_HEADER: usize = 24;
