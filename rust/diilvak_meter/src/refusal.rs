//! The refusal of the library, by name.
use crate::limits::MAX_FIGURE;
use std::fmt;

/// Why a call was refused. A refused call has changed nothing.
///
/// The name and the number are those of `include/diilvak_meter.h`; no call of the package `diilvak` has them.
/// Later versions may have more of them.
#[derive(Clone, Copy, Debug, PartialEq, Eq, Hash)]
#[non_exhaustive]
pub enum Refusal {
    /// 19: a number of a figure is not finite, not a whole count of quarters, below 0, or above
    /// [`MAX_FIGURE`].
    BadFigure,
}

impl Refusal {
    /// The refusal that the C function's number stands for; none for 0, which is 'done', and for numbers that
    /// this version does not have.
    ///
    /// ```
    /// use diilvak_meter::Refusal;
    /// assert_eq!(Refusal::from_number(19), Some(Refusal::BadFigure));
    /// assert_eq!(Refusal::from_number(0), None);
    /// ```
    pub fn from_number(number: usize) -> Option<Refusal> {
        (number == Refusal::BadFigure.number()).then_some(Refusal::BadFigure)
    }

    /// The number of the refusal.
    pub fn number(self) -> usize {
        match self {
            Refusal::BadFigure => 19,
        }
    }
}

impl fmt::Display for Refusal {
    fn fmt(&self, f: &mut fmt::Formatter) -> fmt::Result {
        write!(f, "refusal {}: ", self.number())?;
        match self {
            Refusal::BadFigure => {
                write!(f, "a number of a figure is not one from 0 to {MAX_FIGURE} in quarters")
            }
        }
    }
}

impl std::error::Error for Refusal {}
