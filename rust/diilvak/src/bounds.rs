//! Plates that are known between two levels.
use crate::Plate;

/// A lowest and a highest plate, for a plate of which poor light tells no more: the true one may have any
/// level between the two at each pixel. [`filter_between`](crate::filter_between) takes such a pair and
/// gives one, and refuses plates of different sizes or a pixel whose lowest level is above its highest.
#[derive(Clone, Debug, PartialEq, Eq, Hash)]
pub struct Bounds {
    /// The lowest level that each pixel can have.
    pub lowest: Plate,
    /// The highest level that each pixel can have.
    pub highest: Plate,
}
