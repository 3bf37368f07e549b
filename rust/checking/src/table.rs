//! The refusal table of section 5: what each call is refused with, in the order of the numbers, but for
//! 18 (document 02, N5), which comes with the setting, after 5.
use crate::book::{Book, Key, Pixel, MAX_ENTRIES, MAX_SERIAL};
use crate::plate::{bad_size, Refusal, Setting, CORRECTIONS, MAX_GAPS, MAX_LENGTH, MAX_READING};

/// The lengths of the buffers lent to a filter or a trace. `result` is the path buffer of a trace.
#[derive(Clone, Copy, Debug)]
pub struct Lengths {
    pub plate: usize,
    pub result: usize,
    pub work: usize,
}

/// What is lent to a filter between two plates (document 02, N7): the plates, whose levels are judged too,
/// and the lengths of the two results and of the one work buffer.
#[derive(Clone, Copy, Debug)]
pub struct Between<'a> {
    pub lowest: &'a [i16],
    pub highest: &'a [i16],
    pub results: [usize; 2],
    pub work: usize,
}

/// 4 × (k + 1) × W × H, for sizes and gaps within the limits.
pub fn work_length(width: usize, height: usize, gaps: usize) -> usize {
    4 * (gaps + 1) * width * height
}

/// The signed correction of a word in two's complement.
pub fn signed(word: u16) -> i32 {
    i32::from(word) - if word >= 0x8000 { 0x1_0000 } else { 0 }
}

fn refuse(number: usize) -> Result<(), Refusal> {
    Err(Refusal { number, place: 0 })
}

pub fn setting(setting: Setting) -> Result<(), Refusal> {
    let Setting { length, gaps, directions, mode, ends } = setting;
    if length == 0 || length > MAX_LENGTH {
        refuse(2)
    } else if gaps > MAX_GAPS || gaps >= length {
        refuse(3)
    } else if directions == 0 || directions > 15 {
        refuse(4)
    } else if mode > 1 {
        refuse(5)
    } else if ends > 1 {
        refuse(18)
    } else {
        Ok(())
    }
}

pub fn correct(
    width: usize,
    height: usize,
    readings: &[u16],
    words: &[u16],
    result: usize,
) -> Result<(), Refusal> {
    if bad_size(width, height) {
        return refuse(1);
    }
    let pixels = width * height;
    if readings.len() != pixels || words.len() != pixels {
        return refuse(6);
    }
    if result != pixels {
        return refuse(7);
    }
    if let Some(place) = readings.iter().position(|&reading| reading > MAX_READING) {
        return Err(Refusal { number: 9, place });
    }
    let out_of_bounds = |&word: &u16| !CORRECTIONS.contains(&signed(word));
    if let Some(place) = words.iter().position(out_of_bounds) {
        return Err(Refusal { number: 10, place });
    }
    Ok(())
}

/// 1 to 8 and 18, where the result (or path) buffer is to have `wanted` numbers.
fn lent(
    width: usize,
    height: usize,
    chosen: Setting,
    wanted: impl Fn(usize) -> usize,
    lengths: Lengths,
) -> Result<(), Refusal> {
    if bad_size(width, height) {
        return refuse(1);
    }
    setting(chosen)?;
    let pixels = width * height;
    if lengths.plate != pixels {
        refuse(6)
    } else if lengths.result != wanted(pixels) {
        refuse(7)
    } else if lengths.work < work_length(width, height, chosen.gaps) {
        refuse(8)
    } else {
        Ok(())
    }
}

pub fn filter(width: usize, height: usize, s: Setting, lengths: Lengths) -> Result<(), Refusal> {
    lent(width, height, s, |pixels| pixels, lengths)
}

/// Every check of a filter, of both plates and both results; then 20.
pub fn filter_between(
    width: usize,
    height: usize,
    chosen: Setting,
    lent: Between,
) -> Result<(), Refusal> {
    if bad_size(width, height) {
        return refuse(1);
    }
    setting(chosen)?;
    let pixels = width * height;
    if lent.lowest.len() != pixels || lent.highest.len() != pixels {
        return refuse(6);
    }
    if lent.results != [pixels; 2] {
        return refuse(7);
    }
    if lent.work < work_length(width, height, chosen.gaps) {
        return refuse(8);
    }
    let mut pairs = lent.lowest.iter().zip(lent.highest);
    match pairs.position(|(lowest, highest)| lowest > highest) {
        Some(place) => Err(Refusal { number: 20, place }),
        None => Ok(()),
    }
}

pub fn trace(
    width: usize,
    height: usize,
    s: Setting,
    at: usize,
    lengths: Lengths,
) -> Result<(), Refusal> {
    lent(width, height, s, |_| s.length, lengths)?;
    if at >= width * height {
        refuse(11)
    } else if s.chosen().all(|direction| direction.span(width, height) < s.length) {
        refuse(12)
    } else {
        Ok(())
    }
}

/// Every check of a trace; then those of its entry (document 02, N3).
pub fn enter(
    width: usize,
    height: usize,
    s: Setting,
    pixel: Pixel,
    lengths: Lengths,
    book: &Book,
) -> Result<(), Refusal> {
    trace(width, height, s, pixel.place, lengths)?;
    entry(book, Key { pixel, mode: s.mode })
}

/// 15 and 16.
pub fn entry(book: &Book, key: Key) -> Result<(), Refusal> {
    let supersedes = book.standing().iter().any(|entry| entry.key == key);
    if book.shown > MAX_ENTRIES || (book.shown == MAX_ENTRIES && !supersedes) {
        refuse(15)
    } else if book.last == MAX_SERIAL {
        refuse(16)
    } else {
        Ok(())
    }
}

pub fn withdraw(book: &Book, serial: u32) -> Result<(), Refusal> {
    if book.shown > MAX_ENTRIES {
        refuse(15)
    } else if book.standing().iter().all(|entry| entry.serial != serial) {
        refuse(17)
    } else {
        Ok(())
    }
}
