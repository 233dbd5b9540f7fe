// STAND-IN: src/decode/dbn/sync.rs is not in the text at hand. decode_iso8601 follows document 01's rule.
use crate::{Error, Result};
pub struct Decoder;
pub struct MetadataDecoder;
pub struct RecordDecoder;
pub(crate) fn decode_iso8601(raw: u32) -> Result<time::Date> {
    let year = raw / 10_000;
    let rest = raw % 10_000;
    let month = u8::try_from(rest / 100).ok().and_then(|m| time::Month::try_from(m).ok())
        .ok_or_else(|| Error::decode(format!("invalid month in {raw}")))?;
    time::Date::from_calendar_date(year as i32, month, (rest % 100) as u8)
        .map_err(|e| Error::decode(format!("invalid date {raw}: {e}")))
}
