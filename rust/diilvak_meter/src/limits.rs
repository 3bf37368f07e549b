//! The numbers of `include/diilvak_meter.h`. tests/numbers.rs holds them to the header and to the proved code.

/// This version, 0.1.0, as one number: major × 10000 + minor × 100 + patch. [`version`](crate::version)
/// answers that of the library which is linked.
pub const VERSION: usize = 100;

/// The largest number that the meter may report.
pub const MAX_FIGURE: f32 = 8192.0;

/// The stack, in bytes, that a call of the library finds room in.
pub const STACK: usize = 4096;
