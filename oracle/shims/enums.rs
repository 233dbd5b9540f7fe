// STAND-IN: src/enums.rs and the version policy are not in the text at hand.
// Accepted codes: document 01's "until then", schema 0 to 19, stype 0 to 12.
use crate::{record::RecordHeaderKind, decode::dbn::fsm::DecodeHeader, Error, Result};
#[derive(Debug, Clone, Copy, PartialEq, Eq)]
#[repr(u16)]
pub enum Schema { S0, S1, S2, S3, S4, S5, S6, S7, S8, S9, S10, S11, S12, S13, S14, S15, S16, S17, S18, S19 }
impl TryFrom<u16> for Schema {
    type Error = ();
    fn try_from(v: u16) -> std::result::Result<Self, ()> {
        if v < 20 { Ok(unsafe { std::mem::transmute::<u16, Schema>(v) }) } else { Err(()) }
    }
}
#[derive(Debug, Clone, Copy, PartialEq, Eq)]
#[repr(u8)]
pub enum SType { InstrumentId, S1, S2, S3, S4, S5, S6, S7, S8, S9, S10, S11, S12 }
impl TryFrom<u8> for SType {
    type Error = ();
    fn try_from(v: u8) -> std::result::Result<Self, ()> {
        if v < 13 { Ok(unsafe { std::mem::transmute::<u8, SType>(v) }) } else { Err(()) }
    }
}
pub mod rtype {
    pub const INSTRUMENT_DEF: u8 = 0x13;
    pub const STATISTICS: u8 = 0x18;
    pub const SYMBOL_MAPPING: u8 = 0x16;
    pub const ERROR: u8 = 0x15;
    pub const SYSTEM: u8 = 0x17;
}
#[derive(Debug, Clone, Copy, PartialEq, Eq, Default)]
pub enum VersionUpgradePolicy { AsIs, UpgradeToV2, #[default] UpgradeToV3, UpgradeToV4 }
impl VersionUpgradePolicy {
    pub fn target_version(self) -> Option<u8> {
        match self { Self::AsIs => None, Self::UpgradeToV2 => Some(2), Self::UpgradeToV3 => Some(3), Self::UpgradeToV4 => Some(4) }
    }
    pub fn is_upgrade_situation(self, v: u8) -> bool { self.target_version().is_some_and(|t| v < t) }
    pub fn output_version(self, v: u8) -> u8 { self.target_version().unwrap_or(v).max(v) }
    pub fn validate_compatibility(self, v: u8) -> Result<()> {
        if self.target_version().is_some_and(|t| v > t) { return Err(Error::decode("invalid combination of version and upgrade policy")); }
        Ok(())
    }
}
#[derive(Debug, Clone, Copy, PartialEq, Eq)]
pub struct DbnVersion(pub(crate) u8);
impl DbnVersion {
    /// Guess of the missing text: the version must lie in the header's INPUT_DBN_VERSIONS (given in fsm.rs).
    pub(crate) fn for_header<H: DecodeHeader>(version: u8, policy: VersionUpgradePolicy) -> Result<Self> {
        if !H::INPUT_DBN_VERSIONS.contains(&version) {
            return Err(Error::decode(format!("can't decode newer version of DBN {version}")));
        }
        policy.validate_compatibility(version)?;
        Ok(Self(version))
    }
    pub(crate) fn validate_policy<H: RecordHeaderKind>(_: VersionUpgradePolicy) -> Result<()> { Ok(()) }
}
impl TryFrom<u8> for DbnVersion {
    type Error = Error;
    fn try_from(v: u8) -> Result<Self> { if (1..=4).contains(&v) { Ok(Self(v)) } else { Err(Error::decode("bad version")) } }
}
