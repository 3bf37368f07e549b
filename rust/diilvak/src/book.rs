//! The findings book.
use crate::calls::{done, traced};
use crate::limits::MAX_ENTRIES;
use crate::{raw, Direction, Mode, Pixel, Plate, Refusal, Setting, Trace};
use std::fmt;

/// A trace that stands in a [`Book`].
#[derive(Clone, Copy, Debug, PartialEq, Eq, Hash)]
pub struct Finding {
    /// The number of the finding in its book.
    pub serial: u32,
    /// The number of the plate.
    pub plate: u16,
    /// The place of the traced pixel on that plate.
    pub place: usize,
    /// The mode of the trace.
    pub mode: Mode,
    /// The level that it found.
    pub level: i16,
    /// The direction of its path.
    pub direction: Direction,
}

impl Finding {
    /// The numbers by name; refused where there is no such mode or no such direction.
    fn new(entry: &raw::Entry) -> Result<Finding, Refusal> {
        let mode = Mode::from_number(entry.mode)?;
        let direction = Direction::from_bit(entry.direction).ok_or(Refusal::BadDirections)?;
        let &raw::Entry { serial, plate, place, level, .. } = entry;
        Ok(Finding { serial, plate, place, mode, level, direction })
    }
}

/// Findings under serial numbers: up to [`MAX_ENTRIES`] stand, in the order of entering.
///
/// A finding supersedes an earlier one of the same plate number, place and mode; by which length, gaps,
/// directions and ends they were traced makes no difference. So what stands for a plate number, a place and a
/// mode is the last finding that was entered for them, or nothing once that one is withdrawn.
///
/// ```
/// use diilvak::{Book, Direction, Ends, Mode, Pixel, Plate, Refusal, Setting};
/// let plate = Plate::new(4, 1, vec![9, 5, 12, 8])?;
/// let by = |mode| Setting::new(4, 1, Direction::East, mode, Ends::Anywhere);
/// let (light, dark) = (by(Mode::Opening)?, by(Mode::Closing)?);
/// let first = Pixel { plate: 7, place: 0 };
///
/// let mut book = Book::new();
/// let (serial, trace) = book.enter(&plate, light, first)?;
/// assert_eq!((serial, trace.level), (1, 8));
/// book.enter(&plate, light, Pixel { plate: 7, place: 1 })?;
/// book.enter(&plate, dark, first)?;
///
/// // The first finding is superseded.
/// book.enter(&plate, light, first)?;
/// let standing = |book: &Book| -> Vec<(u32, i16)> {
///     book.entries().map(|finding| (finding.serial, finding.level)).collect()
/// };
/// assert_eq!(standing(&book), [(2, 5), (3, 9), (4, 8)]);
/// assert_eq!(book.withdraw(1), Err(Refusal::NoEntry));
///
/// // It does not come back, and no serial number is given twice.
/// book.withdraw(4)?;
/// assert_eq!(standing(&book), [(2, 5), (3, 9)]);
/// assert_eq!(book.enter(&plate, light, first)?.0, 5);
/// # Ok::<(), Refusal>(())
/// ```
///
/// To store a book, turn it into a [`raw::Book`] of plain numbers; [`Book::try_from`] makes one of them again.
#[derive(Clone, PartialEq, Eq, Hash)]
pub struct Book {
    /// At most [`MAX_ENTRIES`] entries stand, each of a mode and a direction; the other slots are empty.
    raw: raw::Book,
}

impl Book {
    /// A book in which nothing stands.
    pub fn new() -> Book {
        Book { raw: raw::new_book() }
    }

    /// The findings that stand, in the order of entering.
    pub fn entries(&self) -> impl DoubleEndedIterator<Item = Finding> + ExactSizeIterator + '_ {
        let standing = self.raw.entries[..self.raw.count].iter();
        standing.map(|entry| Finding::new(entry).expect("of a mode and a direction"))
    }

    /// The last serial number given, 0 where none was.
    pub fn last_serial(&self) -> u32 {
        self.raw.last
    }

    /// Traces the path through a pixel, as [`trace`](crate::trace) does, and enters what it finds, in place of
    /// what stands for the plate number, the place and the mode. The answer is the serial number of the
    /// finding, and the trace.
    ///
    /// # Errors
    ///
    /// In this order, each with the book as it was: [`Refusal::BadPlace`] and [`Refusal::NoPath`], as of a
    /// trace; [`Refusal::BookFull`] where [`MAX_ENTRIES`] entries stand and none is superseded;
    /// [`Refusal::SerialsSpent`] where the last serial number was given.
    pub fn enter(
        &mut self,
        plate: &Plate,
        setting: Setting,
        pixel: Pixel,
    ) -> Result<(u32, Trace), Refusal> {
        let trace = traced(plate, setting, |path, work, bit, level| {
            let kept = raw::enter_trace(
                plate.width(),
                plate.height(),
                plate.levels(),
                setting.into(),
                pixel,
                self.raw.clone(),
                path,
                work,
                bit,
                level,
            );
            self.keep(kept)
        })?;
        Ok((self.last_serial(), trace))
    }

    /// Takes out the finding with this serial number.
    ///
    /// # Errors
    ///
    /// [`Refusal::NoEntry`] where none stands: the number was not given yet, or its finding was superseded or
    /// withdrawn.
    pub fn withdraw(&mut self, serial: u32) -> Result<(), Refusal> {
        let kept = raw::withdraw(self.raw.clone(), serial);
        done(self.keep(kept), 0)
    }

    /// The book that was handed back, where the call is done; the number of the call.
    fn keep(&mut self, kept: raw::Kept) -> usize {
        if kept.number == 0 {
            self.raw = kept.book;
        }
        kept.number
    }
}

impl Default for Book {
    fn default() -> Book {
        Book::new()
    }
}

/// The counter and the findings that stand, without the empty slots.
impl fmt::Debug for Book {
    fn fmt(&self, f: &mut fmt::Formatter) -> fmt::Result {
        let entries: Vec<Finding> = self.entries().collect();
        let mut book = f.debug_struct("Book");
        book.field("last_serial", &self.last_serial()).field("entries", &entries).finish()
    }
}

/// The numbers of the book; the slots behind the entries that stand are 0.
impl From<Book> for raw::Book {
    fn from(book: Book) -> raw::Book {
        book.raw
    }
}

/// The book of numbers that were kept, or put together by hand. Where two of its entries have one serial
/// number, both are withdrawn at once, and where they are of one pixel and mode, both are superseded.
///
/// ```
/// use diilvak::{raw, Book, Refusal};
/// let mut numbers = raw::Book::from(Book::new());
/// numbers.entries[0] = raw::Entry { serial: 3, plate: 7, place: 0, mode: 0, level: 8, direction: 2 };
/// (numbers.count, numbers.last) = (1, 3);
/// let mut book = Book::try_from(numbers.clone())?;
/// assert_eq!(book.withdraw(3), Ok(()));
///
/// numbers.entries[0].direction = 3;
/// assert_eq!(Book::try_from(numbers), Err(Refusal::BadDirections));
/// # Ok::<(), Refusal>(())
/// ```
///
/// # Errors
///
/// [`Refusal::BookFull`] where more than [`MAX_ENTRIES`] entries are shown; else, for the first entry that
/// stands with such a fault, [`Refusal::BadMode`] for its mode, then [`Refusal::BadDirections`] where its
/// direction is not the bit of one.
impl TryFrom<raw::Book> for Book {
    type Error = Refusal;

    fn try_from(mut raw: raw::Book) -> Result<Book, Refusal> {
        if raw.count > MAX_ENTRIES {
            return Err(Refusal::BookFull);
        }
        let (standing, unused) = raw.entries.split_at_mut(raw.count);
        for entry in standing {
            Finding::new(entry)?;
        }
        unused.fill(raw::Entry::default());
        Ok(Book { raw })
    }
}
