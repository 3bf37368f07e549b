//! What the library is held against: methods that share no code with it.
//!
//! * [`listing`]: opening and closing by the definition, over a listing of all paths, and the judge
//!   of traces.
//! * [`queue`]: the published fast method, path lengths updated by an ordered queue; for paths that may
//!   end anywhere.
//! * [`levels`]: the textbook method, one scan a level.
//! * [`recursion`]: the published decomposition, by the number of pixels and gaps.
//! * [`fast`]: the queue or the recursion, by where paths may end.
//! * [`table`]: the refusal table; [`text`]: the survey program's text.
//! * [`book`]: the findings book; [`histories`]: its worked histories, and what stands after any.
//! * [`meter`]: the lamp meter's correction; [`figures`]: its worked figures, and others.
//! * [`plate`]: plates, settings and directions as bare numbers; [`random`] and [`cases`]: plates of
//!   fixed seeds, and the worked ones; [`lent`]: buffers that remember what they held; [`drawing`]: the
//!   wall of the pictures, and how they are written.
//!
//! All of this is written from the documents and uses nothing of the library, its plain data types
//! neither. The feature `engine`, which is on unless it is turned off, adds the library itself:
//!
//! * `engine`: the library's calls on these types.
//!
//! The feature `meter`, on likewise, adds the add-on to the tests.
//!
//! "Section" and "demand" are those of document 01.
pub mod book;
pub mod cases;
pub mod drawing;
#[cfg(feature = "engine")]
pub mod engine;
pub mod fast;
pub mod figures;
pub mod histories;
pub mod lent;
pub mod levels;
pub mod listing;
pub mod meter;
pub mod plate;
pub mod queue;
pub mod random;
pub mod recursion;
pub mod table;
pub mod text;

pub use plate::{Plate, Refusal, Setting, Trace};
