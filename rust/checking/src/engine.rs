//! The library's calls on the types of this package.
use crate::book::{Book, Entry, Key, Pixel};
use crate::{Plate, Refusal, Setting, Trace};
use diilvak::{raw, Bounds, Directions, Ends, Mode};

/// The same plate for the library.
pub fn plate(plate: &Plate) -> diilvak::Plate {
    diilvak::Plate::new(plate.width(), plate.height(), plate.levels().to_vec())
        .expect("the library takes every plate of an allowed size")
}

/// The same setting for the library, or a refusal that applies to it.
pub fn setting(setting: Setting) -> Result<diilvak::Setting, Refusal> {
    let Setting { length, gaps, directions, mode, ends } = setting;
    let checked = || -> Result<diilvak::Setting, diilvak::Refusal> {
        let (directions, mode) = (Directions::from_bits(directions)?, Mode::from_number(mode)?);
        diilvak::Setting::new(length, gaps, directions, mode, Ends::from_number(ends)?)
    };
    checked().map_err(refusal)
}

/// The five numbers, right or wrong.
pub fn numbers(setting: Setting) -> raw::Setting {
    let Setting { length, gaps, directions, mode, ends } = setting;
    raw::Setting { length, gaps, directions, mode, ends }
}

/// A refusal by its number, with place 0 where it has none.
pub fn refusal(refusal: diilvak::Refusal) -> Refusal {
    Refusal { number: refusal.number(), place: refusal.place().unwrap_or(0) }
}

pub fn correct(
    width: usize,
    height: usize,
    readings: &[u16],
    words: &[u16],
) -> Result<Plate, Refusal> {
    let corrected = diilvak::correct(width, height, readings, words).map_err(refusal)?;
    Plate::new(width, height, corrected.into_levels())
}

pub fn filter(unfiltered: &Plate, chosen: Setting) -> Result<Plate, Refusal> {
    let filtered = diilvak::filter(&plate(unfiltered), setting(chosen)?);
    Ok(unfiltered.with(filtered.into_levels()))
}

/// The filtered lowest and the filtered highest plate.
pub fn filter_between(
    lowest: &Plate,
    highest: &Plate,
    chosen: Setting,
) -> Result<[Plate; 2], Refusal> {
    let bounds = Bounds { lowest: plate(lowest), highest: plate(highest) };
    let kept = diilvak::filter_between(&bounds, setting(chosen)?).map_err(refusal)?;
    Ok([lowest.with(kept.lowest.into_levels()), highest.with(kept.highest.into_levels())])
}

pub fn trace(traced: &Plate, chosen: Setting, at: usize) -> Result<Trace, Refusal> {
    let shown = diilvak::trace(&plate(traced), setting(chosen)?, at).map_err(refusal)?;
    Ok(trace_of(shown))
}

/// The trace with the bit of its direction.
pub fn trace_of(shown: diilvak::Trace) -> Trace {
    Trace { direction: shown.direction.bit(), level: shown.level, path: shown.path }
}

pub fn pixel(Pixel { plate, place }: Pixel) -> diilvak::Pixel {
    diilvak::Pixel { plate, place }
}

/// The same book for the library, to the last slot.
pub fn book(book: &Book) -> raw::Book {
    let entry = |entry: &Entry| {
        let Entry { serial, key, level, direction } = *entry;
        let Key { pixel: Pixel { plate, place }, mode } = key;
        raw::Entry { serial, plate, place, mode, level, direction }
    };
    let entries = std::array::from_fn(|slot| entry(&book.slots[slot]));
    raw::Book { last: book.last, count: book.shown, entries }
}

/// A book of the library, to the last slot.
pub fn book_of(book: &raw::Book) -> Book {
    let entry = |entry: &raw::Entry| {
        let raw::Entry { serial, plate, place, mode, level, direction } = *entry;
        Entry { serial, key: Key { pixel: Pixel { plate, place }, mode }, level, direction }
    };
    Book { last: book.last, shown: book.count, slots: book.entries.iter().map(entry).collect() }
}
