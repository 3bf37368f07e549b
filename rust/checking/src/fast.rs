//! A fast method for every setting: the queue where paths may end anywhere, and else the recursion.
use crate::plate::{Plate, Setting, ANYWHERE};
use crate::{queue, recursion};

/// The opened or closed plate.
pub fn filter(plate: &Plate, setting: Setting) -> Plate {
    match setting.ends {
        ANYWHERE => queue::filter(plate, setting),
        _ => recursion::filter(plate, setting),
    }
}
