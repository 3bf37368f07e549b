//! The C functions of `include/diilvak.h` and `include/diilvak_book.h` on slices; the headers have their
//! contracts.
//!
//! Numbers and buffers of any length may be lent: the library refuses wrong ones by number, and 0 is
//! done. [`Refusal::from_number`](crate::Refusal::from_number) gives a number its name.
//!
//! ```
//! use diilvak::{raw, Direction, Ends, Mode, Setting};
//! let setting = Setting::new(4, 1, Direction::East, Mode::Opening, Ends::Anywhere)?;
//! // These buffers serve for any number of plates of this size.
//! let mut work = vec![0; raw::work_length(4, 1, setting.gaps())];
//! let mut result = [0; 4];
//! for plate in [[9, 5, 12, 8], [9, 9, 9, 1]] {
//!     assert_eq!(raw::filter(4, 1, &plate, setting.into(), &mut result, &mut work), 0);
//! }
//! assert_eq!(result, [9, 9, 9, 1]);
//! # Ok::<(), diilvak::Refusal>(())
//! ```

mod book;

pub use book::{enter_trace, new_book, withdraw, Book, Entry, Kept, Pixel};

/// The declarations of `include/diilvak.h`; nothing but the tests holds the two together.
mod c {
    extern "C" {
        pub fn diilvak_version() -> usize;
        pub fn diilvak_check_setting(
            length: usize,
            gaps: usize,
            directions: usize,
            mode: usize,
            ends: usize,
        ) -> usize;
        pub fn diilvak_work_length(width: usize, height: usize, gaps: usize) -> usize;
        pub fn diilvak_correct(
            width: usize,
            height: usize,
            readings: *const u16,
            readings_len: usize,
            words: *const u16,
            words_len: usize,
            result: *mut i16,
            result_len: usize,
            place: *mut usize,
        ) -> usize;
        pub fn diilvak_filter(
            width: usize,
            height: usize,
            plate: *const i16,
            plate_len: usize,
            length: usize,
            gaps: usize,
            directions: usize,
            mode: usize,
            ends: usize,
            result: *mut i16,
            result_len: usize,
            work: *mut u16,
            work_len: usize,
        ) -> usize;
        pub fn diilvak_filter_between(
            width: usize,
            height: usize,
            lowest: *const i16,
            lowest_len: usize,
            highest: *const i16,
            highest_len: usize,
            length: usize,
            gaps: usize,
            directions: usize,
            mode: usize,
            ends: usize,
            lowest_result: *mut i16,
            lowest_result_len: usize,
            highest_result: *mut i16,
            highest_result_len: usize,
            work: *mut u16,
            work_len: usize,
            place: *mut usize,
        ) -> usize;
        pub fn diilvak_trace(
            width: usize,
            height: usize,
            plate: *const i16,
            plate_len: usize,
            length: usize,
            gaps: usize,
            directions: usize,
            mode: usize,
            ends: usize,
            at: usize,
            path: *mut usize,
            path_len: usize,
            work: *mut u16,
            work_len: usize,
            direction: *mut usize,
            level: *mut i16,
        ) -> usize;
        pub fn diilvak_step(
            width: usize,
            height: usize,
            direction: usize,
            place: usize,
            number: usize,
            to: *mut usize,
        ) -> usize;
    }
}

/// A setting as five numbers, right or wrong.
#[derive(Clone, Copy, Debug, PartialEq, Eq, Hash)]
pub struct Setting {
    /// The pixels of a path.
    pub length: usize,
    /// How many of them may be missing.
    pub gaps: usize,
    /// The sum of the directions' bits.
    pub directions: usize,
    /// 0 for opening, 1 for closing.
    pub mode: usize,
    /// 0 where the ends of a path may be missing too, 1 where they may not.
    pub ends: usize,
}

/// The version of the library that is linked.
pub fn version() -> usize {
    // SAFETY: a number.
    unsafe { c::diilvak_version() }
}

/// 0, or the number of the refusal of the setting, 2 to 5 or 18.
pub fn check_setting(s: Setting) -> usize {
    // SAFETY: numbers only.
    unsafe { c::diilvak_check_setting(s.length, s.gaps, s.directions, s.mode, s.ends) }
}

/// How many numbers the work buffer of a filter, between two plates too, or of a trace has at least; 0
/// where the size or the gap count is refused.
pub fn work_length(width: usize, height: usize, gaps: usize) -> usize {
    // SAFETY: numbers only.
    unsafe { c::diilvak_work_length(width, height, gaps) }
}

/// 0, with every level of `result` written, or refusal 1, 6, 7, 9 or 10. `place` is always written: the
/// place of refusal 9 or 10, and else 0.
pub fn correct(
    width: usize,
    height: usize,
    readings: &[u16],
    words: &[u16],
    result: &mut [i16],
    place: &mut usize,
) -> usize {
    // SAFETY: each pointer goes with its slice's own length.
    unsafe {
        c::diilvak_correct(
            width,
            height,
            readings.as_ptr(),
            readings.len(),
            words.as_ptr(),
            words.len(),
            result.as_mut_ptr(),
            result.len(),
            place,
        )
    }
}

/// 0, with every level of `result` written, or refusal 1 to 8 or 18.
pub fn filter(
    width: usize,
    height: usize,
    plate: &[i16],
    s: Setting,
    result: &mut [i16],
    work: &mut [u16],
) -> usize {
    // SAFETY: each pointer goes with its slice's own length.
    unsafe {
        c::diilvak_filter(
            width,
            height,
            plate.as_ptr(),
            plate.len(),
            s.length,
            s.gaps,
            s.directions,
            s.mode,
            s.ends,
            result.as_mut_ptr(),
            result.len(),
            work.as_mut_ptr(),
            work.len(),
        )
    }
}

/// 0, with every level of both results written, or refusal 1 to 8, 18 or 20. `place` is always written:
/// the place of refusal 20, and else 0.
#[allow(clippy::too_many_arguments)]
pub fn filter_between(
    width: usize,
    height: usize,
    lowest: &[i16],
    highest: &[i16],
    s: Setting,
    lowest_result: &mut [i16],
    highest_result: &mut [i16],
    work: &mut [u16],
    place: &mut usize,
) -> usize {
    // SAFETY: each pointer goes with its slice's own length.
    unsafe {
        c::diilvak_filter_between(
            width,
            height,
            lowest.as_ptr(),
            lowest.len(),
            highest.as_ptr(),
            highest.len(),
            s.length,
            s.gaps,
            s.directions,
            s.mode,
            s.ends,
            lowest_result.as_mut_ptr(),
            lowest_result.len(),
            highest_result.as_mut_ptr(),
            highest_result.len(),
            work.as_mut_ptr(),
            work.len(),
            place,
        )
    }
}

/// 0, with `path`, `direction` (its bit) and `level` written, or refusal 1 to 8, 11, 12 or
/// 18.
#[allow(clippy::too_many_arguments)]
pub fn trace(
    width: usize,
    height: usize,
    plate: &[i16],
    s: Setting,
    at: usize,
    path: &mut [usize],
    work: &mut [u16],
    direction: &mut usize,
    level: &mut i16,
) -> usize {
    // SAFETY: each pointer goes with its slice's own length.
    unsafe {
        c::diilvak_trace(
            width,
            height,
            plate.as_ptr(),
            plate.len(),
            s.length,
            s.gaps,
            s.directions,
            s.mode,
            s.ends,
            at,
            path.as_mut_ptr(),
            path.len(),
            work.as_mut_ptr(),
            work.len(),
            direction,
            level,
        )
    }
}

/// 1, with `to` written, or 0 where the step leaves the plate or does not exist.
pub fn step(
    width: usize,
    height: usize,
    direction: usize,
    place: usize,
    number: usize,
    to: &mut usize,
) -> usize {
    // SAFETY: numbers, and one number to be written.
    unsafe { c::diilvak_step(width, height, direction, place, number, to) }
}
