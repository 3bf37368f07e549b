//! Directions of paths, and sets of them.
use crate::raw;
use crate::Refusal;
use std::ops::BitOr;

/// A direction of paths: three steps, each a change of column and of row. The numbers are the bits
/// of the C functions.
#[derive(Clone, Copy, Debug, PartialEq, Eq, Hash)]
pub enum Direction {
    /// Steps (−1,−1), (0,−1), (1,−1).
    North = 1,
    /// Steps (1,−1), (1,0), (1,1).
    East = 2,
    /// Steps (1,0), (1,−1), (0,−1).
    NorthEast = 4,
    /// Steps (1,0), (1,1), (0,1).
    SouthEast = 8,
}

impl Direction {
    /// All four, by rising bit.
    pub const ALL: [Direction; 4] =
        [Direction::North, Direction::East, Direction::NorthEast, Direction::SouthEast];

    /// The bit of the direction.
    pub fn bit(self) -> usize {
        self as usize
    }

    /// The direction with this bit, if there is one.
    pub fn from_bit(bit: usize) -> Option<Direction> {
        Direction::ALL.into_iter().find(|direction| direction.bit() == bit)
    }
}

/// One or more directions.
///
/// ```
/// use diilvak::{Direction, Directions};
/// let upright = Direction::North | Direction::NorthEast;
/// assert!(upright.contains(Direction::North) && !upright.contains(Direction::East));
/// assert_eq!(upright.bits(), 5);
/// assert_eq!(upright | Direction::East | Direction::SouthEast, Directions::ALL);
/// ```
#[derive(Clone, Copy, Debug, PartialEq, Eq, Hash)]
pub struct Directions(usize);

impl Directions {
    /// All four directions.
    pub const ALL: Directions = Directions(15);

    /// The set whose bits add up to this number.
    ///
    /// # Errors
    ///
    /// [`Refusal::BadDirections`] where the number is 0 or above 15.
    pub fn from_bits(bits: usize) -> Result<Directions, Refusal> {
        let setting = raw::Setting { length: 1, gaps: 0, directions: bits, mode: 0, ends: 0 };
        match raw::check_setting(setting) {
            0 => Ok(Directions(bits)),
            _ => Err(Refusal::BadDirections),
        }
    }

    /// The sum of the directions' bits, 1 to 15.
    pub fn bits(self) -> usize {
        self.0
    }

    /// Whether the direction is one of the set.
    pub fn contains(self, direction: Direction) -> bool {
        self.0 & direction.bit() != 0
    }
}

impl From<Direction> for Directions {
    fn from(direction: Direction) -> Directions {
        Directions(direction.bit())
    }
}

impl<T: Into<Directions>> BitOr<T> for Directions {
    type Output = Directions;

    fn bitor(self, other: T) -> Directions {
        Directions(self.0 | other.into().0)
    }
}

impl<T: Into<Directions>> BitOr<T> for Direction {
    type Output = Directions;

    fn bitor(self, other: T) -> Directions {
        Directions::from(self) | other
    }
}
