// STAND-IN of v2.rs: only what fsm.rs names.
pub use crate::compat::SYMBOL_CSTR_LEN_V2 as SYMBOL_CSTR_LEN;
pub use crate::record::{DummyMsg as ErrorMsg, DummyMsg as InstrumentDefMsg, DummyMsg as StatMsg, DummyMsg as SymbolMappingMsg, DummyMsg as SystemMsg};
