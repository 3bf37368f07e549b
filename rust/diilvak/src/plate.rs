//! Plates of levels.
use crate::{raw, Refusal};

/// A plate of signed 16-bit levels, row by row from the top: always of an allowed size, with exactly
/// width × height levels. The pixel in column c and row r has the place r × width + c.
#[derive(Clone, Debug, PartialEq, Eq, Hash)]
pub struct Plate {
    width: usize,
    height: usize,
    levels: Vec<i16>,
}

impl Plate {
    /// A plate of these levels.
    ///
    /// ```
    /// use diilvak::{Plate, Refusal};
    /// let plate = Plate::new(2, 2, vec![1, 9, 9, 1])?;
    /// assert_eq!((plate.width(), plate.levels()[1]), (2, 9));
    /// assert_eq!(Plate::new(2, 2, vec![1, 9, 9]), Err(Refusal::BadInput));
    /// # Ok::<(), Refusal>(())
    /// ```
    ///
    /// # Errors
    ///
    /// [`Refusal::BadSize`], then [`Refusal::BadInput`] where there are not width × height levels.
    pub fn new(width: usize, height: usize, levels: Vec<i16>) -> Result<Plate, Refusal> {
        // A work buffer has at least one number, so 0 says that the size is refused.
        if raw::work_length(width, height, 0) == 0 {
            return Err(Refusal::BadSize);
        }
        if levels.len() != width * height {
            return Err(Refusal::BadInput);
        }
        Ok(Plate { width, height, levels })
    }

    /// How many columns there are.
    pub fn width(&self) -> usize {
        self.width
    }

    /// How many rows there are.
    pub fn height(&self) -> usize {
        self.height
    }

    /// All levels, row by row.
    pub fn levels(&self) -> &[i16] {
        &self.levels
    }

    /// How many pixels there are.
    pub fn pixels(&self) -> usize {
        self.levels.len()
    }

    /// The levels, without a copy.
    pub fn into_levels(self) -> Vec<i16> {
        self.levels
    }

    /// A plate of the same size with as many other levels.
    pub(crate) fn with(&self, levels: Vec<i16>) -> Plate {
        debug_assert_eq!(levels.len(), self.pixels());
        Plate { width: self.width, height: self.height, levels }
    }
}
