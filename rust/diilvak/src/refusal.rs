//! The refusals of the library, by name.
use crate::limits::{
    MAX_CORRECTION, MAX_ENTRIES, MAX_GAPS, MAX_LENGTH, MAX_PIXELS, MAX_READING, MAX_SERIAL,
    MAX_SIDE, MIN_CORRECTION,
};
use std::fmt;

/// Why a call was refused. A refused call has changed nothing that was lent to it.
///
/// The names and numbers are those of `include/diilvak.h`. Later versions may have more of them.
#[derive(Clone, Copy, Debug, PartialEq, Eq, Hash)]
#[non_exhaustive]
pub enum Refusal {
    /// 1: width or height is 0 or above [`MAX_SIDE`], or there are more than [`MAX_PIXELS`] pixels.
    BadSize,
    /// 2: the length is 0 or above [`MAX_LENGTH`].
    BadLength,
    /// 3: more than [`MAX_GAPS`] gaps, or not fewer gaps than the length.
    BadGaps,
    /// 4: no direction, or one that does not exist.
    BadDirections,
    /// 5: the mode is neither opening nor closing.
    BadMode,
    /// 6: an input does not have width × height numbers.
    BadInput,
    /// 7: a result does not have width × height numbers, or the path not exactly the length.
    BadResult,
    /// 8: the work buffer is too short.
    BadWork,
    /// 9: a reading is above [`MAX_READING`].
    BadReading {
        /// The first such place.
        place: usize,
    },
    /// 10: a correction is below [`MIN_CORRECTION`] or above [`MAX_CORRECTION`].
    BadCorrection {
        /// The first such place.
        place: usize,
    },
    /// 11: the traced place is not on the plate.
    BadPlace,
    /// 12: no path of this length, in one of the directions, goes through the pixel.
    NoPath,
    /// 15: [`MAX_ENTRIES`] entries stand in the book and none has the plate number, the place and the mode;
    /// or the book shows more than that.
    BookFull,
    /// 16: the book has given its last serial number, [`MAX_SERIAL`].
    SerialsSpent,
    /// 17: no entry that stands in the book has the serial number.
    NoEntry,
    /// 18: the ends are neither anywhere nor on crack. It is judged after 5 and before 6.
    BadEnds,
    /// 20: a level of the lowest plate is above that of the highest.
    BadBounds {
        /// The first such place.
        place: usize,
    },
}

impl Refusal {
    /// The refusal that a C function's number stands for, with the place that it reported; none for 0,
    /// which is 'done', and for numbers that this version does not have.
    ///
    /// ```
    /// use diilvak::Refusal;
    /// assert_eq!(Refusal::from_number(9, 3), Some(Refusal::BadReading { place: 3 }));
    /// assert_eq!(Refusal::from_number(12, 0), Some(Refusal::NoPath));
    /// assert_eq!(Refusal::from_number(0, 0), None);
    /// ```
    pub fn from_number(number: usize, place: usize) -> Option<Refusal> {
        Some(match number {
            1 => Refusal::BadSize,
            2 => Refusal::BadLength,
            3 => Refusal::BadGaps,
            4 => Refusal::BadDirections,
            5 => Refusal::BadMode,
            6 => Refusal::BadInput,
            7 => Refusal::BadResult,
            8 => Refusal::BadWork,
            9 => Refusal::BadReading { place },
            10 => Refusal::BadCorrection { place },
            11 => Refusal::BadPlace,
            12 => Refusal::NoPath,
            15 => Refusal::BookFull,
            16 => Refusal::SerialsSpent,
            17 => Refusal::NoEntry,
            18 => Refusal::BadEnds,
            20 => Refusal::BadBounds { place },
            _ => return None,
        })
    }

    /// The number of the refusal in the table.
    pub fn number(self) -> usize {
        match self {
            Refusal::BadSize => 1,
            Refusal::BadLength => 2,
            Refusal::BadGaps => 3,
            Refusal::BadDirections => 4,
            Refusal::BadMode => 5,
            Refusal::BadInput => 6,
            Refusal::BadResult => 7,
            Refusal::BadWork => 8,
            Refusal::BadReading { .. } => 9,
            Refusal::BadCorrection { .. } => 10,
            Refusal::BadPlace => 11,
            Refusal::NoPath => 12,
            Refusal::BookFull => 15,
            Refusal::SerialsSpent => 16,
            Refusal::NoEntry => 17,
            Refusal::BadEnds => 18,
            Refusal::BadBounds { .. } => 20,
        }
    }

    /// The place that the refusal speaks of, where it has one.
    pub fn place(self) -> Option<usize> {
        match self {
            Refusal::BadReading { place }
            | Refusal::BadCorrection { place }
            | Refusal::BadBounds { place } => Some(place),
            _ => None,
        }
    }
}

impl fmt::Display for Refusal {
    fn fmt(&self, f: &mut fmt::Formatter) -> fmt::Result {
        write!(f, "refusal {}", self.number())?;
        if let Some(place) = self.place() {
            write!(f, " at place {place}")?;
        }
        f.write_str(": ")?;
        match self {
            Refusal::BadSize => write!(
                f,
                "width or height is 0 or above {MAX_SIDE}, or there are over {MAX_PIXELS} pixels"
            ),
            Refusal::BadLength => write!(f, "the length is 0 or above {MAX_LENGTH}"),
            Refusal::BadGaps => {
                write!(f, "more than {MAX_GAPS} gaps, or not fewer gaps than the length")
            }
            Refusal::BadDirections => f.write_str("no direction, or one that does not exist"),
            Refusal::BadMode => f.write_str("the mode is neither 0 nor 1"),
            Refusal::BadInput => f.write_str("an input does not have width × height numbers"),
            Refusal::BadResult => f.write_str("a result or the path has not the right length"),
            Refusal::BadWork => f.write_str("the work buffer is too short"),
            Refusal::BadReading { .. } => write!(f, "a reading is above {MAX_READING}"),
            Refusal::BadCorrection { .. } => {
                write!(f, "a correction is below {MIN_CORRECTION} or above {MAX_CORRECTION}")
            }
            Refusal::BadPlace => f.write_str("the place is not on the plate"),
            Refusal::NoPath => f.write_str("no path of this length goes through the pixel"),
            Refusal::BookFull => {
                write!(f, "no room beside {MAX_ENTRIES} entries, or more are shown")
            }
            Refusal::SerialsSpent => write!(f, "the last serial number, {MAX_SERIAL}, was given"),
            Refusal::NoEntry => f.write_str("no entry of this serial number stands"),
            Refusal::BadEnds => f.write_str("the ends are neither 0 nor 1"),
            Refusal::BadBounds { .. } => f.write_str("the lowest level is above the highest"),
        }
    }
}

impl std::error::Error for Refusal {}
