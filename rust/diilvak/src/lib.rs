//! Exact path openings and closings of grey plates, and the path through a pixel.
//!
//! A crack on a photographed wall is long, thin and seldom straight. A path opening keeps, at every
//! pixel, only the brightness that lies on some long path through it; a closing does the same for dark
//! cracks. The work is done by a library that is proved, for every input, to give what
//! `include/diilvak.h` and `include/diilvak_book.h` say; this package is the safe way to it from Rust.
//!
//! ```
//! use diilvak::{correct, filter, trace, Directions, Ends, Mode, Refusal, Setting, Trace};
//!
//! fn crack(readings: &[u16], words: &[u16], at: usize) -> Result<Trace, Refusal> {
//!     let plate = correct(32, 5, readings, words)?;
//!     // Light cracks of 20 pixels with up to 3 gaps, in all four directions.
//!     let setting = Setting::new(20, 3, Directions::ALL, Mode::Opening, Ends::Anywhere)?;
//!     let opened = filter(&plate, setting);
//!     let shown = trace(&plate, setting, at)?;
//!     assert_eq!(shown.level, opened.levels()[at]);
//!     Ok(shown)
//! }
//!
//! let shown = crack(&[100; 160], &[65535; 160], 70)?;
//! assert_eq!((shown.level, shown.path.len()), (99, 20));
//! # Ok::<(), Refusal>(())
//! ```
//!
//! Where poor light leaves a plate between two levels, [`filter_between`] takes a lowest and a highest
//! plate and gives the lowest and the highest that the filter can make of one between them.
//!
//! A [`Book`] keeps traces as findings with serial numbers: [`Book::enter`] traces a pixel and enters what
//! it finds, in place of an earlier finding there, and [`Book::withdraw`] takes a finding out. A refused
//! call leaves the book as it was.
//!
//! The calls here lend result, path and work buffers of their own, so that only true refusals are
//! left. A caller that keeps its buffers, or has numbers from elsewhere, takes [`raw`].
#![warn(missing_docs)]
mod book;
mod bounds;
mod calls;
mod directions;
pub mod limits;
mod plate;
pub mod raw;
mod refusal;
mod setting;

pub use book::{Book, Finding};
pub use bounds::Bounds;
pub use calls::{correct, filter, filter_between, step, trace, version, Trace};
pub use directions::{Direction, Directions};
pub use plate::Plate;
pub use raw::Pixel;
pub use refusal::Refusal;
pub use setting::{Ends, Mode, Setting};
