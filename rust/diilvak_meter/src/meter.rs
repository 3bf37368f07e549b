//! What the meter reports, and the word that it makes.
use crate::{raw, Refusal};

/// A figure of the meter. Its numbers are from 0 to [`MAX_FIGURE`](crate::limits::MAX_FIGURE) in quarters, and
/// −0 counts as 0; others are refused when the word is asked for.
#[derive(Clone, Copy, Debug, PartialEq)]
pub enum Figure {
    /// One number.
    Steady(f32),
    /// Two numbers, of which either may be the larger: their mean is taken.
    Drifting(f32, f32),
}

/// What the meter reports.
#[derive(Clone, Copy, Debug, PartialEq)]
pub struct Meter {
    /// The lamp figure.
    pub lamp: Figure,
    /// The dark figure.
    pub dark: Figure,
}

impl Meter {
    /// The word of the correction: the dark figure less the lamp figure, rounded to a whole level, halves away
    /// from zero, in two's complement. It is 0 to 8192, or 57344 to 65535 for −8192 to −1. The difference is
    /// exact before it is rounded.
    ///
    /// ```
    /// use diilvak_meter::{Figure, Meter};
    /// let word = |lamp, dark| Meter { lamp: Figure::Steady(lamp), dark: Figure::Steady(dark) }.word();
    /// assert_eq!([word(0.0, 2.25), word(0.0, 2.5), word(2.5, 0.0)], [Ok(2), Ok(3), Ok(65533)]);
    /// ```
    ///
    /// # Errors
    ///
    /// [`Refusal::BadFigure`] where a number of either figure is not finite, not a whole count of quarters, or
    /// out of its range.
    pub fn word(self) -> Result<u16, Refusal> {
        let mut word = 0;
        match raw::word(self.into(), &mut word) {
            0 => Ok(word),
            number => {
                Err(Refusal::from_number(number).expect("the library's number is the header's"))
            }
        }
    }
}

impl From<Figure> for raw::Reported {
    fn from(figure: Figure) -> raw::Reported {
        match figure {
            Figure::Steady(number) => raw::Reported { first: number, second: 0.0, drifting: 0 },
            Figure::Drifting(first, second) => raw::Reported { first, second, drifting: 1 },
        }
    }
}

impl From<Meter> for raw::Report {
    fn from(meter: Meter) -> raw::Report {
        raw::Report { lamp: meter.lamp.into(), dark: meter.dark.into() }
    }
}
