// STAND-IN: src/v4/fields.rs is not in the text at hand. The special ids are those of sheets/; natural sizes and label
// users are put in at run time (`install`), so that one build serves many sheets.
use std::{
    marker::PhantomData,
    sync::atomic::{AtomicBool, AtomicU32, Ordering::Relaxed},
};

include!("sheet.rs");

pub const FLAG_IS_ARRAY: u8 = 0x80;
pub const CSTR_ID: u8 = 3;
pub const U8_ID: u8 = 5;
pub const U16_ID: u8 = 6;
pub const U32_ID: u8 = 7;
pub const U64_ID: u8 = 8;
pub const I8_ID: u8 = 9;
pub const I16_ID: u8 = 10;
pub const I32_ID: u8 = 11;
pub const I64_ID: u8 = 12;
pub const ENUM_CHAR_ID: u8 = 13;
pub const ENUM_8_ID: u8 = 14;
pub const ENUM_16_ID: u8 = 15;
pub const BIT_SET_8_ID: u8 = 16;
pub const BIT_SET_16_ID: u8 = 18;
pub const BIT_SET_32_ID: u8 = 19;
pub const BIT_SET_64_ID: u8 = 20;

const NONE: u32 = u32::MAX;
static SIZES: [AtomicU32; 256] = [const { AtomicU32::new(NONE) }; 256];
static LABELS: [AtomicBool; 256] = [const { AtomicBool::new(false) }; 256];

/// Gives every id its natural size, and says whether it uses labels.
pub fn install(sheet: impl Fn(u8) -> (Option<u16>, bool)) {
    for id in 0..=255 {
        let (size, labels) = sheet(id);
        SIZES[id as usize].store(size.map_or(NONE, u32::from), Relaxed);
        LABELS[id as usize].store(labels, Relaxed);
    }
}

#[inline]
pub fn scalar_size(id: u8) -> Option<u16> {
    match SIZES[id as usize].load(Relaxed) {
        NONE => None,
        size => Some(size as u16),
    }
}

#[inline]
pub fn uses_label_def(id: u8) -> bool {
    LABELS[id as usize].load(Relaxed)
}

pub trait FieldType {
    const TYPE_ID: u8;
    const ARRAY_WIRE_SIZE: Option<u16> = None;
}

pub trait DecodeField: FieldType {
    type Value<'a>;
    fn decode<'a>(bytes: &'a [u8], scale: i8) -> Option<Self::Value<'a>>;
}

macro_rules! ints { ($($t:ty, $id:ident;)*) => { $(
    impl FieldType for $t { const TYPE_ID: u8 = $id; }
    impl DecodeField for $t {
        type Value<'a> = $t;
        fn decode<'a>(b: &'a [u8], _: i8) -> Option<$t> { Some(<$t>::from_le_bytes(b.try_into().ok()?)) }
    }
)* } }
ints! { u8, U8_ID; u16, U16_ID; u32, U32_ID; u64, U64_ID; i8, I8_ID; i16, I16_ID; i32, I32_ID; i64, I64_ID; }

pub struct Field<T> {
    id: u16,
    _m: PhantomData<T>,
}
impl<T> Clone for Field<T> {
    fn clone(&self) -> Self {
        *self
    }
}
impl<T> Copy for Field<T> {}
impl<T: FieldType> Field<T> {
    pub const fn id(self) -> u16 {
        self.id
    }
    pub const fn type_id(self) -> u8 {
        T::TYPE_ID
    }
}
pub const TS_OUT: Field<u64> = Field { id: 2, _m: PhantomData };
pub const HD: Field<u64> = Field { id: 1, _m: PhantomData };

#[derive(Debug, Clone, Copy, PartialEq, Eq)]
pub enum FieldDefault {
    Zero,
    Max,
}
impl FieldDefault {
    pub fn write(self, _type_id: u8, _out: &mut [u8]) {}
}
pub fn default_of(_field_id: u16, _type_id: u8) -> FieldDefault {
    FieldDefault::Zero
}
