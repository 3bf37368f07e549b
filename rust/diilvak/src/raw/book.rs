//! The C functions of `include/diilvak_book.h`: the findings book, handed over and handed back.
use super::Setting;
use crate::limits::MAX_ENTRIES;

/// The declarations of `include/diilvak_book.h`; nothing but the tests holds the two together.
mod c {
    use super::{Book, Kept, Pixel};

    extern "C" {
        pub fn diilvak_new_book() -> Book;
        pub fn diilvak_enter_trace(
            width: usize,
            height: usize,
            plate: *const i16,
            plate_len: usize,
            length: usize,
            gaps: usize,
            directions: usize,
            mode: usize,
            ends: usize,
            pixel: Pixel,
            book: Book,
            path: *mut usize,
            path_len: usize,
            work: *mut u16,
            work_len: usize,
            direction: *mut usize,
            level: *mut i16,
        ) -> Kept;
        pub fn diilvak_withdraw(book: Book, serial: u32) -> Kept;
    }
}

/// An entry as six numbers, right or wrong.
#[derive(Clone, Copy, Debug, Default, PartialEq, Eq, Hash)]
#[repr(C)]
pub struct Entry {
    /// The number of the entry, from 1.
    pub serial: u32,
    /// The number of the plate.
    pub plate: u16,
    /// The place of the pixel on that plate.
    pub place: usize,
    /// 0 for opening, 1 for closing.
    pub mode: usize,
    /// The level that the trace has found.
    pub level: i16,
    /// The bit of the direction that the trace has found.
    pub direction: usize,
}

/// A book, right or wrong: the library refuses one that shows more than [`MAX_ENTRIES`] entries.
#[derive(Clone, Debug, PartialEq, Eq, Hash)]
#[repr(C)]
pub struct Book {
    /// The last serial number given.
    pub last: u32,
    /// How many entries stand.
    pub count: usize,
    /// The first `count` of them stand, in the order of entering; the other slots say nothing.
    pub entries: [Entry; MAX_ENTRIES],
}

/// What a call hands back.
#[derive(Clone, Debug, PartialEq, Eq, Hash)]
#[repr(C)]
pub struct Kept {
    /// 0, or the number of the refusal.
    pub number: usize,
    /// The book after the call, or, where it was refused, the book as it came.
    pub book: Book,
}

/// A pixel of a numbered plate.
#[derive(Clone, Copy, Debug, PartialEq, Eq, Hash)]
#[repr(C)]
pub struct Pixel {
    /// The number of the plate, the caller's own name for it.
    pub plate: u16,
    /// The place of the pixel on that plate.
    pub place: usize,
}

/// A book in which nothing stands.
pub fn new_book() -> Book {
    // SAFETY: a struct of numbers.
    unsafe { c::diilvak_new_book() }
}

/// 0, with `path`, `direction` (its bit) and `level` written and the book with the trace entered; or
/// refusal 1 to 8, 11, 12, 15, 16 or 18.
#[allow(clippy::too_many_arguments)]
pub fn enter_trace(
    width: usize,
    height: usize,
    plate: &[i16],
    s: Setting,
    pixel: Pixel,
    book: Book,
    path: &mut [usize],
    work: &mut [u16],
    direction: &mut usize,
    level: &mut i16,
) -> Kept {
    // SAFETY: each pointer goes with its slice's own length, and the structs have any numbers.
    unsafe {
        c::diilvak_enter_trace(
            width,
            height,
            plate.as_ptr(),
            plate.len(),
            s.length,
            s.gaps,
            s.directions,
            s.mode,
            s.ends,
            pixel,
            book,
            path.as_mut_ptr(),
            path.len(),
            work.as_mut_ptr(),
            work.len(),
            direction,
            level,
        )
    }
}

/// 0, with the book without the entries of the serial number; or refusal 15 or 17.
pub fn withdraw(book: Book, serial: u32) -> Kept {
    // SAFETY: numbers only.
    unsafe { c::diilvak_withdraw(book, serial) }
}
