// STAND-IN around lines 5 to 37 of the given compat.rs, verbatim (restore.sh cuts them out).
include!("compat_cut.rs");
