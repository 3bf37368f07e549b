//! The lamp meter's figures with fractions, turned into a correction.
//!
//! The lamp meter reports a lamp figure and a dark figure. The correction of a plate is the dark figure less
//! the lamp figure, rounded to a whole level, halves away from zero, as a 16-bit word in two's complement: what
//! `correct` of the package `diilvak` takes. The work is done by a library that is proved, for every input, to
//! give what `include/diilvak_meter.h` says; this package is the safe way to it from Rust.
//!
//! ```
//! use diilvak_meter::{Figure, Meter, Refusal};
//!
//! // −2.5 is rounded to −3, whose word is 65533.
//! let meter = Meter { lamp: Figure::Steady(2.5), dark: Figure::Steady(0.0) };
//! assert_eq!(meter.word(), Ok(65533));
//!
//! // The mean of a drifting figure is exact: 7.5 less 10.125 is −2.625.
//! let meter = Meter { lamp: Figure::Drifting(10.0, 10.25), dark: Figure::Steady(7.5) };
//! assert_eq!(meter.word(), Ok(65533));
//!
//! // The meter counts in quarters.
//! let meter = Meter { lamp: Figure::Steady(0.125), ..meter };
//! assert_eq!(meter.word(), Err(Refusal::BadFigure));
//! ```
//!
//! The package is an add-on to `diilvak` and stands by itself. A caller that has its figures as C has them
//! takes [`raw`].
#![warn(missing_docs)]
pub mod limits;
mod meter;
pub mod raw;
mod refusal;

pub use meter::{Figure, Meter};
pub use refusal::Refusal;

/// The version of the library that is linked; [`limits::VERSION`] is that of this package.
pub fn version() -> usize {
    raw::version()
}
