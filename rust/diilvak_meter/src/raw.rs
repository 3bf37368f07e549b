//! The C functions of `include/diilvak_meter.h`; the header has their contracts.

/// The declarations of `include/diilvak_meter.h`; nothing but the tests holds the two together.
mod c {
    use super::Report;

    extern "C" {
        pub fn diilvak_meter_version() -> usize;
        pub fn diilvak_meter_word(report: Report, word: *mut u16) -> usize;
    }
}

/// A figure, right or wrong.
#[derive(Clone, Copy, Debug, PartialEq)]
#[repr(C)]
pub struct Reported {
    /// The number, or the first of two.
    pub first: f32,
    /// The second number of a drifting figure; of a steady one it is not looked at.
    pub second: f32,
    /// 0 for a steady figure; any other number for a drifting one.
    pub drifting: usize,
}

/// Both figures, right or wrong.
#[derive(Clone, Copy, Debug, PartialEq)]
#[repr(C)]
pub struct Report {
    /// The lamp figure.
    pub lamp: Reported,
    /// The dark figure.
    pub dark: Reported,
}

/// The version of the library that is linked.
pub fn version() -> usize {
    // SAFETY: a number.
    unsafe { c::diilvak_meter_version() }
}

/// 0, with `word` written, or refusal 19.
pub fn word(report: Report, word: &mut u16) -> usize {
    // SAFETY: a struct of any numbers, and one number to be written.
    unsafe { c::diilvak_meter_word(report, word) }
}
