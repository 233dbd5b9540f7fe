use crate::{
    block::{guess, lent, NO_TYPES, TABLE_SHORT},
    ffi::{self, HOUSE_BLOCK, HOUSE_MOST, HOUSE_PAYLOAD},
    prelude, promise,
    tables::zeroed,
    Block, Limits, Prelude, Refusal, RefusalKind, Sheet, Tables,
};
use std::fmt;

/// The length of a prelude.
const PRELUDE: usize = 8;
/// Where the prelude stands in a house file, after the first block's index and count.
const FIRST: usize = 4;
/// The refusal of a store that is too short.
const STORE_SHORT: u32 = RefusalKind::StoreShort.number();
/// The refusals of a file, which leave everything as it was.
const OF_FILE: std::ops::RangeInclusive<u32> = RefusalKind::HouseLength.number()..=RefusalKind::HouseUsed.number();

/// The start of a stream that was kept in a house file: its bytes, and what was read of them.
///
/// A house file is blocks of 512 bytes, each with its index, its count of used bytes and two check words, sums modulo 65535. [`HouseFile::store`] gives
/// the file of an accepted start, and [`HouseFile::load`] gives the start back, exactly the bytes that were stored, read by the ordinary reader. A file
/// with any one byte changed is refused, by 131. Where more is changed the sums tell most of it, but not a word of 0 that becomes 65535, nor the
/// reverse.
///
/// ```
/// use dbn_start::{BlockBuilder, HouseFile, Limits, RefusalKind};
/// let mut start = BlockBuilder::new(3);
/// start.symbols = vec!["ES.c.0".into()];
/// let stream = start.write(None)?;
/// let mut file = HouseFile::store(&stream, None)?;
/// assert_eq!(file.len(), 512);
///
/// let loaded = HouseFile::load(&file, None, Limits::default())?;
/// assert_eq!(loaded.start(), stream);
/// assert_eq!(loaded.block().symbols().collect::<Vec<_>>(), ["ES.c.0"]);
///
/// file[200] ^= 1;
/// let refusal = HouseFile::load(&file, None, Limits::default()).expect_err("a changed byte");
/// assert_eq!(refusal.kind(), RefusalKind::HouseCheck);
/// # Ok::<(), dbn_start::Refusal>(())
/// ```
#[derive(Clone)]
pub struct HouseFile {
    start: Vec<u8>,
    tables: Tables,
    out: [u64; 16],
}

impl HouseFile {
    /// The house file of a start, prelude and block, which must be all of the bytes. Below version 4 the sheet may be `None`.
    ///
    /// Refused as a [`Feed`](crate::Feed) refuses the start, at the same place; by 1 for bytes after the block, by 134 where the start is not
    /// whole; then by 130 above 65,536 blocks. [`Feed::held`](crate::Feed::held) has the bytes of a start that was fed.
    pub fn store<'s>(start: &[u8], sheet: impl Into<Option<&'s Sheet>>) -> Result<Vec<u8>, Refusal> {
        let blocks = start.len().div_ceil(HOUSE_PAYLOAD);
        let mut file = buffer(blocks, HOUSE_BLOCK)?;
        let length = Self::store_into(start, sheet, &mut file)?;
        assert_eq!(length, file.len(), "the library dbn_c broke its promise: the length of a house file");
        Ok(file)
    }

    /// The same into an output, which may be longer. The length written, or after those refusals 112 where the output is too short. A refusal
    /// leaves it as it was.
    pub fn store_into<'s>(
        start: &[u8],
        sheet: impl Into<Option<&'s Sheet>>,
        output: &mut [u8],
    ) -> Result<usize, Refusal> {
        let sheet = match prelude(start) {
            Ok(Prelude::Whole { version, .. }) => lent(version, sheet.into())?,
            _ => NO_TYPES,
        };
        let mut out = [0; 16];
        // SAFETY: each pointer and length are those of a slice, no two of them overlap, and `out` is ours.
        let number = unsafe {
            ffi::dbn_house_store(start.as_ptr(), start.len(), sheet, output.as_mut_ptr(), output.len(), &mut out)
        };
        Refusal::unless_read(number, out[ffi::PLACE])?;
        Ok(promise(out[0], "the length of a house file"))
    }

    /// Reads a whole house file. Below version 4 the sheet may be `None`.
    ///
    /// Refused by 130 for the file's length, then by the first block that is not sound: 131 for its check words, 132 for its index, 133 for its used
    /// count or its filler. Then as a [`Feed`](crate::Feed) with these limits refuses the start, at the same place; by 1 for bytes after the
    /// block, and by 134 where the file ends before the start does. The memory that this takes is the file's own length, and the tables are as a
    /// feed's.
    pub fn load<'s>(file: &[u8], sheet: impl Into<Option<&'s Sheet>>, limits: Limits) -> Result<Self, Refusal> {
        let (sheet, mut out) = (sheet.into(), [0; 20]);
        let mut loaded = Self::begun(file, limits.rows)?;
        let mut number = loaded.call(file, sheet, &mut out);
        if OF_FILE.contains(&number) {
            return Refusal::unless_accepted(number).map(|()| loaded);
        }
        loaded.start.truncate(promise(out[17], "the bytes of a house file"));
        loaded.announced(sheet, limits)?;
        if number == STORE_SHORT {
            // The store has room for all that a file of that length holds, and the prelude announces more.
            return Err(Refusal::own(RefusalKind::HouseNeeds));
        }
        if number == TABLE_SHORT {
            loaded.tables.grow(out[10], out[11])?;
            number = loaded.call(file, sheet, &mut out);
            assert_ne!(number, TABLE_SHORT, "the library dbn_c broke its promise: the rows it needs are not enough");
        }
        Refusal::unless_read(number, out[ffi::PLACE])?;
        assert_eq!(out[18], 0, "the library dbn_c broke its promise: a whole start is not done");
        loaded.out.copy_from_slice(&out[..16]);
        Ok(loaded)
    }

    /// The block of the start.
    pub fn block(&self) -> Block<'_> {
        Block::accepted(self.start[3], &self.start[PRELUDE..], &self.out, &self.tables)
    }

    /// The start, prelude and block: the bytes that were stored.
    pub fn start(&self) -> &[u8] {
        &self.start
    }

    /// Hands over the start.
    pub fn into_start(self) -> Vec<u8> {
        self.start
    }

    /// Room for what a file holds, and for the rows that its block may have.
    fn begun(file: &[u8], rows: usize) -> Result<Self, Refusal> {
        let (start, mut tables) = (buffer(file.len() / HOUSE_BLOCK, HOUSE_PAYLOAD)?, Tables::new(rows));
        if let (Some(version), false) = (file.get(FIRST + 3), start.is_empty()) {
            // Whatever a block's length is guessed by stands in the first block of the file.
            guess(*version, &file[FIRST + PRELUDE..], &mut tables);
        }
        Ok(Self { start, tables, out: [0; 16] })
    }

    /// What a feed says of the prelude before it waits for the block: refused by its own number, without a sheet, or above the limit.
    fn announced(&self, sheet: Option<&Sheet>, limits: Limits) -> Result<(), Refusal> {
        let Prelude::Whole { version, length } = prelude(&self.start)? else { return Ok(()) };
        lent(version, sheet)?;
        match PRELUDE.checked_add(length as usize) {
            Some(whole) if whole <= limits.bytes => Ok(()),
            _ => Err(Refusal::own(RefusalKind::StoreShort)),
        }
    }

    /// The library's answer on a file.
    fn call(&mut self, file: &[u8], sheet: Option<&Sheet>, out: &mut [u64; 20]) -> u32 {
        let (start, Tables { symbology, layout, .. }) = (&mut self.start, &mut self.tables);
        let sheet = sheet.map_or(NO_TYPES, Sheet::numbers);
        // SAFETY: each pointer and length are those of a slice, no two of them overlap, and `out` is the caller's.
        unsafe {
            ffi::dbn_house_load(
                file.as_ptr(),
                file.len(),
                start.as_mut_ptr(),
                start.len(),
                sheet,
                symbology.as_mut_ptr(),
                symbology.len(),
                layout.as_mut_ptr(),
                layout.len(),
                out,
            )
        }
    }
}

/// So many zeros for each of some blocks, none where that is more than a file may have: what has so many is refused before they are looked at.
fn buffer(blocks: usize, each: usize) -> Result<Vec<u8>, Refusal> {
    if blocks == 0 || blocks > HOUSE_MOST {
        return Ok(Vec::new());
    }
    zeroed(blocks * each).ok_or(Refusal::own(RefusalKind::NoMemory))
}

impl fmt::Debug for HouseFile {
    fn fmt(&self, f: &mut fmt::Formatter<'_>) -> fmt::Result {
        f.debug_struct("HouseFile").field("length", &self.start.len()).field("block", &self.block()).finish()
    }
}
