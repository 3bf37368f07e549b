//! Single calls that trace, and those of the findings book, with noise in all lent buffers, held to the
//! refusal table.
use crate::calls::number;
use checking::book::{Book, Key, Pixel};
use checking::engine::{self, numbers};
use checking::lent::Lent;
use checking::listing::judge_shown;
use checking::random::Random;
use checking::table::{self, Lengths};
use checking::{fast, Plate, Setting, Trace};
use diilvak::raw;
use std::fmt::Debug;

/// A trace of a plate of these levels, with the lengths of all buffers; any of it may be wrong.
#[derive(Clone, Copy, Debug)]
pub struct Asked<'a> {
    pub size: (usize, usize),
    pub levels: &'a [i16],
    pub setting: Setting,
    pub at: usize,
    pub lengths: Lengths,
}

impl Asked<'_> {
    /// With buffers of the right lengths.
    pub fn of(plate: &Plate, setting: Setting, at: usize) -> Asked<'_> {
        let (width, height) = (plate.width(), plate.height());
        let work = table::work_length(width, height, setting.gaps);
        let lengths = Lengths { plate: plate.pixels(), result: setting.length, work };
        Asked { size: (width, height), levels: plate.levels(), setting, at, lengths }
    }
}

/// Any levels.
pub fn noise(random: &mut Random, length: usize) -> Vec<i16> {
    (0..length).map(|_| random.draw() as i16).collect()
}

/// What is lent to a call that traces, with noise in all that it may write.
struct Traced {
    plate: Lent<i16>,
    path: Lent<usize>,
    work: Lent<u16>,
    direction: Lent<usize>,
    level: Lent<i16>,
}

impl Traced {
    fn new(random: &mut Random, asked: &Asked) -> Traced {
        Traced {
            plate: Lent::holding(asked.levels, || random.draw() as i16),
            path: Lent::new(asked.lengths.result, || random.draw() as usize),
            work: Lent::new(asked.lengths.work, || random.draw() as u16),
            direction: Lent::new(1, || random.draw() as usize),
            level: Lent::new(1, || random.draw() as i16),
        }
    }

    /// After a call: none where it was refused, and then nothing has changed; else the trace, which meets the
    /// sentences of demand 3.
    fn judge(mut self, done: bool, asked: &Asked, call: &impl Debug) -> Option<Trace> {
        let Asked { size: (width, height), levels, setting, at, .. } = *asked;
        assert!(self.plate.untouched(), "{call:?}: the plate changed");
        if !done {
            let untouched = self.path.untouched() && self.work.untouched();
            assert!(untouched, "{call:?}: a refusal changed a buffer");
            let untouched = self.direction.untouched() && self.level.untouched();
            assert!(untouched, "{call:?}: a refusal changed a number");
            return None;
        }
        let guards = self.path.guards_untouched() && self.work.guards_untouched();
        assert!(guards, "{call:?}: beyond a buffer");
        let guards = self.direction.guards_untouched() && self.level.guards_untouched();
        assert!(guards, "{call:?}: beyond a number");
        let (direction, level) = (self.direction.lend()[0], self.level.lend()[0]);
        let trace = Trace { direction, level, path: self.path.lend().to_vec() };
        let plate = Plate::new(width, height, levels.to_vec()).unwrap();
        let filtered = fast::filter(&plate, setting);
        let again = engine::trace(&filtered, setting, at);
        assert_eq!(judge_shown(&plate, setting, at, &trace, &filtered, &again), Ok(()), "{call:?}");
        Some(trace)
    }
}

/// One raw trace of a plate of noise. Returns the refusal number.
pub fn trace_call(
    random: &mut Random,
    size: (usize, usize),
    setting: Setting,
    at: usize,
    lengths: Lengths,
) -> usize {
    let levels = noise(random, lengths.plate);
    let asked = Asked { size, levels: &levels, setting, at, lengths };
    let mut lent = Traced::new(random, &asked);
    let (width, height) = size;
    let found = raw::trace(
        width,
        height,
        lent.plate.lend(),
        numbers(setting),
        at,
        lent.path.lend(),
        lent.work.lend(),
        &mut lent.direction.lend()[0],
        &mut lent.level.lend()[0],
    );
    let call = ("trace", &asked);
    assert_eq!(found, number(table::trace(width, height, setting, at, lengths)), "{call:?}");
    lent.judge(found == 0, &asked, &call);
    found
}

/// The same of a trace that is to be entered under a plate number, and of the book, which is compared to the
/// last slot. Returns the refusal number, or the book that came back and the trace.
pub fn enter_call(
    random: &mut Random,
    asked: Asked,
    plate: u16,
    book: &Book,
) -> Result<(Book, Trace), usize> {
    let Asked { size: (width, height), setting, at, lengths, .. } = asked;
    let pixel = Pixel { plate, place: at };
    let mut lent = Traced::new(random, &asked);
    let kept = raw::enter_trace(
        width,
        height,
        lent.plate.lend(),
        numbers(setting),
        engine::pixel(pixel),
        engine::book(book),
        lent.path.lend(),
        lent.work.lend(),
        &mut lent.direction.lend()[0],
        &mut lent.level.lend()[0],
    );
    let call = ("enter", &asked, plate, book);
    let verdict = table::enter(width, height, setting, pixel, lengths, book);
    assert_eq!(kept.number, number(verdict), "{call:?}");
    let back = engine::book_of(&kept.book);
    match lent.judge(kept.number == 0, &asked, &call) {
        Some(trace) => {
            let key = Key { pixel, mode: setting.mode };
            assert_eq!(back, book.entered(key, trace.level, trace.direction), "{call:?}");
            Ok((back, trace))
        }
        None => {
            assert_eq!(back, *book, "{call:?}: a refusal changed the book");
            Err(kept.number)
        }
    }
}

/// The same of a withdrawal.
pub fn withdraw_call(book: &Book, serial: u32) -> Result<Book, usize> {
    let kept = raw::withdraw(engine::book(book), serial);
    let back = engine::book_of(&kept.book);
    let call = ("withdraw", serial, book);
    assert_eq!(kept.number, number(table::withdraw(book, serial)), "{call:?}");
    if kept.number == 0 {
        assert_eq!(back, book.withdrawn(serial), "{call:?}");
        Ok(back)
    } else {
        assert_eq!(back, *book, "{call:?}: a refusal changed the book");
        Err(kept.number)
    }
}
