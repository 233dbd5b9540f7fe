// The special ids of the second made sheet.
pub const PADDING_ID: u8 = 255;
pub const STRUCT_ID: u8 = 200;
pub const SYMBOL_ID: u8 = 17;
pub const DECIMAL_ID: u8 = 0;
pub const FLAG_IS_EXTENSION: u8 = 16;
pub const SHEET_HEADER: usize = 32;
