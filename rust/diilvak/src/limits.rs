//! The numbers of `include/diilvak.h` and `include/diilvak_book.h`, under the names that they have there
//! after `DIILVAK_`. tests/numbers.rs holds them to the headers and to the proved code.

/// This version, 0.6.0, as one number: major × 10000 + minor × 100 + patch. [`version`](crate::version)
/// answers that of the library which is linked.
pub const VERSION: usize = 600;

/// The largest width or height of a plate.
pub const MAX_SIDE: usize = 1024;
/// The largest number of a plate's pixels.
pub const MAX_PIXELS: usize = 65_536;
/// The largest reading.
pub const MAX_READING: u16 = 16_383;
/// The lowest correction.
pub const MIN_CORRECTION: i32 = -16_384;
/// The highest correction.
pub const MAX_CORRECTION: i32 = 16_383;
/// The largest length of a path, in pixels.
pub const MAX_LENGTH: usize = 1024;
/// The largest gap count.
pub const MAX_GAPS: usize = 8;
/// The set of all directions.
pub const MAX_DIRECTIONS: usize = 15;
/// The last mode.
pub const MAX_MODE: usize = 1;
/// The last number for the ends of a path.
pub const MAX_ENDS: usize = 1;
/// How many entries can stand in a findings book.
pub const MAX_ENTRIES: usize = 256;
/// The last serial number that a findings book gives.
pub const MAX_SERIAL: u32 = 4_294_967_295;

/// The stack, in bytes, that a filter finds room in, between two plates too, whatever the plate and the
/// setting. No other call takes as much.
pub const FILTER_STACK: usize = 196_608;
/// The stack, in bytes, that a trace finds room in.
pub const TRACE_STACK: usize = 98_304;
/// The stack, in bytes, that the C function which enters a trace finds room in, beside the books that it is
/// handed and hands back.
pub const ENTER_STACK: usize = 131_072;
/// The same of the C function that withdraws entries.
pub const WITHDRAW_STACK: usize = 98_304;
