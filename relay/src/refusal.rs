use crate::promise;
use std::fmt;

/// Writes the enum, its sentences and the list of all refusals from one table.
macro_rules! refusals {
    ($($name:ident $number:literal $sentence:literal)*) => {
        /// What is refused, by name. [`RefusalKind::number`] is the number of the table of refusals, and
        /// [`RefusalKind::sentence`] says it in a few words. `docs/REFUSALS.md` has a page on all of them.
        ///
        /// Numbers below 200 are the library's, as `include/dbn_start.h` lists them; 70 is retired. Those from 200 on are this package's own.
        #[derive(Debug, Clone, Copy, PartialEq, Eq, PartialOrd, Ord, Hash)]
        #[non_exhaustive]
        #[repr(u32)]
        pub enum RefusalKind {
            $(#[doc = concat!($number, ": ", $sentence, ".")] $name = $number,)*
        }

        impl RefusalKind {
            /// Every kind of refusal, by rising number.
            pub const ALL: &'static [RefusalKind] = &[$(RefusalKind::$name),*];

            /// What is refused, in a few words.
            pub const fn sentence(self) -> &'static str {
                match self { $(RefusalKind::$name => $sentence),* }
            }

            /// The kind that has a number, where there is one.
            pub const fn from_number(number: u32) -> Option<RefusalKind> {
                match number { $($number => Some(RefusalKind::$name),)* _ => None }
            }
        }
    };
}

refusals! {
    HeldBeyond 1 "more bytes are held than the store, the whole block or the record has"
    StoreShort 2 "the store is too short for the prelude or for the block"
    TableShort 3 "a row table is too short"
    Magic 10 "the stream does not begin with DBN"
    Version 11 "the version is not 1 to 4"
    BlockLength 12 "the block's length is below 100"
    Size 13 "the block is below 100 bytes, or it or the layout is above 4,294,967,295"
    DatasetNotUtf8 20 "the dataset is not UTF-8"
    Schema 21 "the schema is not known"
    StypeIn 22 "the input symbol type is not known"
    StypeOut 23 "the output symbol type is not known"
    LayoutLengthMissing 24 "the length of the layout is missing"
    LayoutBelow4 25 "a layout below version 4"
    NoLayout 26 "no layout in version 4"
    SymbologyLengthMissing 27 "the length of the symbology is missing"
    SymbologyNotSpanned 28 "the symbology does not span its section"
    DatasetAfterNul 29 "the dataset has more than NULs after a NUL"
    ListCountMissing 30 "the count of a symbol list is missing"
    ListCountLarge 31 "the count of a symbol list is too large"
    ListNotUtf8 32 "a symbol of a list is not UTF-8"
    MappingCountMissing 33 "the count of mappings is missing"
    MappingCountLarge 34 "the count of mappings is too large"
    MappingShort 35 "a mapping is cut short"
    RawSymbolNotUtf8 36 "the raw symbol of a mapping is not UTF-8"
    IntervalCountLarge 37 "the count of a mapping's intervals is too large"
    StartDate 38 "an interval's start date is no date"
    EndDate 39 "an interval's end date is no date"
    SymbolNotUtf8 40 "an interval's symbol is not UTF-8"
    ListAfterNul 41 "a symbol of a list has more than NULs after a NUL"
    RawSymbolAfterNul 42 "the raw symbol of a mapping has more than NULs after a NUL"
    SymbolAfterNul 43 "an interval's symbol has more than NULs after a NUL"
    LayoutPastEnd 44 "the layout goes past the end of the block"
    SymbologyPastEnd 45 "the symbology goes past the end of the block"
    LayoutTruncated 50 "the layout is cut short"
    SectionShort 51 "a section's length is below 2"
    NameHoldsNul 52 "a name holds a NUL"
    NameNotUtf8 53 "a name is not UTF-8"
    NameNotClosed 54 "a name has no closing NUL"
    LabelTwice 55 "a label code stands twice in a label def"
    StructSize 60 "a struct's size is not a multiple of its alignment"
    RtypeTwice 61 "an rtype stands twice"
    RtypeReserved 62 "an rtype's low byte is 4E"
    BaseBelowHeader 63 "a base size is below the header's"
    BaseNotOf8 64 "a base size is not a multiple of 8"
    IdTwice 71 "a field id stands twice"
    StructInStruct 72 "a struct within a struct"
    DefIndex 73 "a def index is out of range"
    Misaligned 74 "a field is misaligned"
    SizeZero 75 "a field has size 0"
    DecimalScale 76 "a decimal's scale is not -9"
    SymbolWidth 77 "a symbol field's size is not the symbol width"
    FieldEnd 78 "a field's offset and size are over 65535"
    ExtensionMark 79 "a field's extension mark and its place differ"
    PastBase 80 "a base field goes past the base"
    BaseGap 81 "a gap or an overlap among the base fields"
    BaseUnfilled 82 "the base is not covered to its end"
    ExtensionGap 83 "a gap among the extension fields"
    RowsMalformed 90 "the rows are malformed, or there is no such name"
    CountLarge 91 "a count is over 65535"
    NameLong 92 "a name is over 255 bytes"
    NameText 93 "a name holds a NUL or is not UTF-8"
    SectionLarge 94 "a section is over 65535 bytes, or the layout over 4,294,967,295"
    LabelsNotRising 95 "label codes do not rise"
    OutputShort 96 "the output is too short"
    FrameLength 100 "a record's length is below 16 bytes"
    FrameStoreShort 101 "the store is too short for a record's header or for the record"
    StartMalformed 110 "the symbology rows, texts or fields to write are malformed"
    TextWide 111 "a symbol or the dataset is too wide, or a width in version 1 is not 22"
    StartOutputShort 112 "the output is too short for the start or its house file"
    LeftoverInSection 120 "bytes are left over in a section"
    CodesNotRising 121 "a label's code is not above the one before it"
    SkippedNotZero 122 "a skipped byte of an entry is not zero"
    LeftoverAfterLabels 123 "bytes are left over after the label defs"
    HouseLength 130 "a house file does not have 1 to 65,536 blocks of 512 bytes"
    HouseCheck 131 "the check words of a house file's block are wrong"
    HouseIndex 132 "the index of a house file's block is not its place in the file"
    HouseUsed 133 "the used count of a house file's block is wrong, or its filler not zero"
    HouseNeeds 134 "the start of a house file ends before its prelude or its block does"
    NoSheet 200 "a version 4 stream, and no type sheet was given to judge its layout by"
    NoMemory 201 "the system has no memory for the bytes or the rows"
}

impl RefusalKind {
    /// The number: one of the library's table, or one from 200 on.
    pub const fn number(self) -> u32 {
        self as u32
    }

    /// The kind that the library answered.
    fn answered(number: u32) -> Self {
        match Self::from_number(number) {
            Some(kind) => kind,
            None => {
                panic!("the library dbn_c broke its promise: it answered {number}, which is no number of the table")
            }
        }
    }

    /// Whether refusals of this kind have a place: 10 to 12 and 20 to 55 do where they come from reading, and 120 to 123, which tell what is untidy.
    pub const fn has_place(self) -> bool {
        matches!(self.number(), 10..=12 | 20..=55 | 120..=123)
    }
}

/// Why something was refused, and where.
///
/// ```
/// use dbn_start::{prelude, RefusalKind};
/// let refusal = prelude(b"DBN\x09\x64\0\0\0").expect_err("version 9");
/// assert_eq!((refusal.kind(), refusal.number(), refusal.place()), (RefusalKind::Version, 11, Some(3)));
/// assert_eq!(refusal.to_string(), "refused by 11 at byte 3: the version is not 1 to 4");
/// ```
#[derive(Debug, Clone, Copy, PartialEq, Eq, PartialOrd, Ord, Hash)]
pub struct Refusal {
    kind: RefusalKind,
    place: Option<usize>,
}

impl Refusal {
    /// What is refused, by name.
    pub const fn kind(self) -> RefusalKind {
        self.kind
    }

    /// What is refused, by number: [`RefusalKind::number`].
    pub const fn number(self) -> u32 {
        self.kind.number()
    }

    /// What is refused, in a few words: [`RefusalKind::sentence`].
    pub const fn sentence(self) -> &'static str {
        self.kind.sentence()
    }

    /// The byte at which it is refused, for the kinds that have a place ([`RefusalKind::has_place`]), else `None`. What
    /// [`BlockBuilder`](crate::BlockBuilder) cannot write has no place, whatever its kind: no bytes are read.
    ///
    /// For 10 to 12 it counts from the prelude, and 11 is at byte 3 also where a version is given with a block. For 20 to 55 it counts
    /// from the block, which begins at byte 8 of a stream, or from the layout where a layout was given. It is the first byte of the
    /// number or text that broke its rule, or the byte where something was to begin that does not fit, which may be the end of the
    /// bytes; for 28 the first byte that the contents do not reach. For 120 to 123 it counts from the layout: the first byte left over (120,
    /// 123), the label's code (121), the first skipped byte that is not zero (122). `docs/REFUSALS.md` has the rule of each number.
    pub const fn place(self) -> Option<usize> {
        self.place
    }

    /// A refusal by this package itself, which has no place.
    pub(crate) const fn own(kind: RefusalKind) -> Self {
        assert!(!kind.has_place(), "a refusal from reading is the library's");
        Self { kind, place: None }
    }

    /// The refusal that the library answered, with the place that it told, where what was called tells places.
    fn answered(number: u32, told: Option<u64>) -> Self {
        let kind = RefusalKind::answered(number);
        let place = kind.has_place().then(|| match told {
            Some(place) => promise(place, "a refusal's place"),
            None => panic!("the library dbn_c broke its promise: it answered {number} where nothing is read"),
        });
        Self { kind, place }
    }

    /// The answer of a function that reads and tells the place of a refusal. 0 is no refusal.
    pub(crate) fn unless_read(number: u32, place: u64) -> Result<(), Self> {
        match number {
            0 => Ok(()),
            number => Err(Self::answered(number, Some(place))),
        }
    }

    /// The answer of the block writer, whose refusals have no place, those by the reader's numbers neither. 0 is no refusal.
    pub(crate) fn unless_written(number: u32) -> Result<(), Self> {
        match number {
            0 => Ok(()),
            number => Err(Self { kind: RefusalKind::answered(number), place: None }),
        }
    }

    /// The answer of a function whose refusals have no place. 0 is no refusal.
    pub(crate) fn unless_accepted(number: u32) -> Result<(), Self> {
        match number {
            0 => Ok(()),
            number => Err(Self::answered(number, None)),
        }
    }
}

impl fmt::Display for Refusal {
    fn fmt(&self, f: &mut fmt::Formatter<'_>) -> fmt::Result {
        write!(f, "refused by {}", self.number())?;
        if let Some(place) = self.place {
            write!(f, " at byte {place}")?;
        }
        write!(f, ": {}", self.sentence())
    }
}

impl std::error::Error for Refusal {}

#[cfg(test)]
mod tests {
    use super::*;

    #[test]
    fn every_number_of_the_table_has_one_name_and_one_sentence() {
        let below = [1..=3, 10..=13, 20..=45, 50..=55, 60..=64, 71..=83, 90..=96, 100..=101];
        let numbers: Vec<u32> =
            below.into_iter().chain([110..=112, 120..=123, 130..=134, 200..=201]).flatten().collect();
        assert_eq!(RefusalKind::ALL.iter().map(|kind| kind.number()).collect::<Vec<_>>(), numbers);
        assert!(RefusalKind::ALL
            .iter()
            .all(|&one| RefusalKind::from_number(one.number()) == Some(one) && one.sentence().len() > 10));
        let known = (0..1000).filter(|&number| RefusalKind::from_number(number).is_some()).count();
        assert_eq!(known, numbers.len());
    }

    #[test]
    fn a_place_is_told_for_the_kinds_that_have_one() {
        let placed: Vec<u32> =
            RefusalKind::ALL.iter().filter(|kind| kind.has_place()).map(|kind| kind.number()).collect();
        let ranges = [10..=12, 20..=45, 50..=55, 120..=123];
        assert_eq!(placed, ranges.into_iter().flatten().collect::<Vec<_>>());
        for kind in RefusalKind::ALL {
            let refusal = Refusal::unless_read(kind.number(), 104).expect_err("a refusal");
            assert_eq!((refusal.kind(), refusal.place()), (*kind, kind.has_place().then_some(104)));
        }
        let text = |number| Refusal::unless_read(number, 104).expect_err("a refusal").to_string();
        assert_eq!(text(44), "refused by 44 at byte 104: the layout goes past the end of the block");
        assert_eq!(text(120), "refused by 120 at byte 104: bytes are left over in a section");
        assert_eq!(text(13), format!("refused by 13: {}", RefusalKind::Size.sentence()));
    }

    #[test]
    fn what_is_not_written_has_no_place() {
        for kind in RefusalKind::ALL {
            let refusal = Refusal::unless_written(kind.number()).expect_err("a refusal");
            assert_eq!((refusal.kind(), refusal.place()), (*kind, None));
        }
        let text = Refusal::unless_written(25).expect_err("a refusal").to_string();
        assert_eq!((text, Refusal::unless_written(0)), ("refused by 25: a layout below version 4".into(), Ok(())));
    }

    #[test]
    #[should_panic(expected = "it answered 46, which is no number of the table")]
    fn a_number_of_no_table_is_told_loudly() {
        let _ = Refusal::unless_read(46, 0);
    }

    #[test]
    #[should_panic(expected = "it answered 44 where nothing is read")]
    fn a_refusal_from_reading_where_nothing_is_read_is_told_loudly() {
        let _ = Refusal::unless_accepted(44);
    }
}
