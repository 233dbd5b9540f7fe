use crate::ffi;

/// The type sheet: what the layout of a version 4 stream is judged by. Streams below version 4 need none.
///
/// [`Sheet::new`] wants what every sheet has; [`with_type`](Sheet::with_type) and [`with_label_type`](Sheet::with_label_type) add the
/// types that have a natural size. A sheet in its lent form, 520 numbers as `include/dbn_start.h` names them, is a sheet too ([`From`]).
///
/// ```
/// use dbn_start::{Sheet, SheetIds};
/// let ids = SheetIds {
///     struct_id: 1,
///     symbol_id: 2,
///     decimal_id: 4,
///     padding_id: 0,
///     extension_weight: 64,
///     no_label_def: 65535,
///     header_size: 24,
/// };
/// let sheet = Sheet::new(ids).with_type(4, 8).with_type(5, 1).with_label_type(13, 1);
/// assert_eq!((sheet.numbers()[5], sheet.numbers()[256 + 13], sheet.numbers()[518]), (1, 1, 24));
/// ```
#[derive(Clone, PartialEq, Eq)]
pub struct Sheet([u16; ffi::SHEET]);

/// What every type sheet says, whichever types it has.
#[derive(Debug, Clone, Copy, PartialEq, Eq)]
pub struct SheetIds {
    /// The type id of a struct.
    pub struct_id: u8,
    /// The type id of a symbol, whose size is the stream's symbol width.
    pub symbol_id: u8,
    /// The type id of a decimal, whose scale is -9.
    pub decimal_id: u8,
    /// The type id of padding.
    pub padding_id: u8,
    /// The weight, in a field's flags, of the bit that marks an extension.
    pub extension_weight: u16,
    /// The def index that means no label def.
    pub no_label_def: u16,
    /// The size of a record's header, which no base size is below.
    pub header_size: u16,
}

impl Sheet {
    /// A sheet on which no type has a natural size yet.
    pub fn new(ids: SheetIds) -> Self {
        let mut numbers = [0; ffi::SHEET];
        let special = [ids.struct_id, ids.symbol_id, ids.decimal_id, ids.padding_id].map(u16::from);
        numbers[512..516].copy_from_slice(&special);
        numbers[516..519].copy_from_slice(&[ids.extension_weight, ids.no_label_def, ids.header_size]);
        Self(numbers)
    }

    /// The sheet with a type of this natural size, which its offsets are a multiple of.
    #[must_use]
    pub fn with_type(mut self, id: u8, size: u16) -> Self {
        self.0[id as usize] = size;
        self
    }

    /// The sheet with a type of this natural size whose def index names a label def.
    #[must_use]
    pub fn with_label_type(mut self, id: u8, size: u16) -> Self {
        self.0[256 + id as usize] = 1;
        self.with_type(id, size)
    }

    /// The sheet in its lent form.
    pub fn numbers(&self) -> &[u16; ffi::SHEET] {
        &self.0
    }
}

impl From<[u16; ffi::SHEET]> for Sheet {
    fn from(numbers: [u16; ffi::SHEET]) -> Self {
        Self(numbers)
    }
}

impl std::fmt::Debug for Sheet {
    fn fmt(&self, f: &mut std::fmt::Formatter<'_>) -> std::fmt::Result {
        let types = self.0[..256].iter().filter(|&&size| size > 0).count();
        f.debug_struct("Sheet").field("types", &types).field("special", &&self.0[512..519]).finish_non_exhaustive()
    }
}
