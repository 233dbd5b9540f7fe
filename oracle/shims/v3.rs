// STAND-IN of v3.rs: only what fsm.rs names.
pub use crate::compat::SYMBOL_CSTR_LEN_V3 as SYMBOL_CSTR_LEN;
pub use crate::record::{DummyMsg as InstrumentDefMsg, DummyMsg as StatMsg, HasRType, RecordHeader};
