//! The setting of a filter or a trace.
use crate::{raw, Directions, Refusal};

/// What is kept: light cracks or dark ones.
#[derive(Clone, Copy, Debug, PartialEq, Eq, Hash)]
pub enum Mode {
    /// Light cracks: at every pixel the highest level, not above its own, that a path keeps.
    Opening = 0,
    /// Dark cracks: the mirror of that, by −1 − v.
    Closing = 1,
}

impl Mode {
    /// The mode with this number.
    ///
    /// # Errors
    ///
    /// [`Refusal::BadMode`] where the number is above 1.
    pub fn from_number(number: usize) -> Result<Mode, Refusal> {
        match number {
            0 => Ok(Mode::Opening),
            1 => Ok(Mode::Closing),
            _ => Err(Refusal::BadMode),
        }
    }

    /// The number of the mode.
    pub fn number(self) -> usize {
        self as usize
    }
}

/// Where a path may end. Its ends are its first pixel and its last, one pixel for a path of length 1.
#[derive(Clone, Copy, Debug, PartialEq, Eq, Hash)]
pub enum Ends {
    /// The ends may be gaps, as any other pixel of the path.
    Anywhere = 0,
    /// A crack ends on crack: a path counts at a level only where neither of its ends is below it
    /// (closing: above it).
    OnCrack = 1,
}

impl Ends {
    /// The ends with this number.
    ///
    /// # Errors
    ///
    /// [`Refusal::BadEnds`] where the number is above 1.
    pub fn from_number(number: usize) -> Result<Ends, Refusal> {
        match number {
            0 => Ok(Ends::Anywhere),
            1 => Ok(Ends::OnCrack),
            _ => Err(Refusal::BadEnds),
        }
    }

    /// The number of the ends.
    pub fn number(self) -> usize {
        self as usize
    }
}

/// The length of a path in pixels, the gaps allowed on it, the directions, the mode, and where a path
/// may end: always within the limits.
#[derive(Clone, Copy, Debug, PartialEq, Eq, Hash)]
pub struct Setting {
    length: usize,
    gaps: usize,
    directions: Directions,
    mode: Mode,
    ends: Ends,
}

impl Setting {
    /// A setting within the limits.
    ///
    /// ```
    /// use diilvak::{Direction, Ends, Mode, Refusal, Setting};
    /// // Cracks of 60 pixels with up to 3 gaps, to the east.
    /// let setting = Setting::new(60, 3, Direction::East, Mode::Opening, Ends::Anywhere)?;
    /// assert_eq!(setting.length(), 60);
    /// // A path that is all gaps is none.
    /// let all_gaps = Setting::new(3, 3, Direction::East, Mode::Opening, Ends::Anywhere);
    /// assert_eq!(all_gaps, Err(Refusal::BadGaps));
    /// # Ok::<(), Refusal>(())
    /// ```
    ///
    /// # Errors
    ///
    /// [`Refusal::BadLength`], then [`Refusal::BadGaps`].
    pub fn new(
        length: usize,
        gaps: usize,
        directions: impl Into<Directions>,
        mode: Mode,
        ends: Ends,
    ) -> Result<Setting, Refusal> {
        let setting = Setting { length, gaps, directions: directions.into(), mode, ends };
        match Refusal::from_number(raw::check_setting(setting.into()), 0) {
            None => Ok(setting),
            Some(refusal) => Err(refusal),
        }
    }

    /// The pixels of a path.
    pub fn length(self) -> usize {
        self.length
    }

    /// How many of them may be missing.
    pub fn gaps(self) -> usize {
        self.gaps
    }

    /// The directions that paths may have.
    pub fn directions(self) -> Directions {
        self.directions
    }

    /// Opening or closing.
    pub fn mode(self) -> Mode {
        self.mode
    }

    /// Where a path may end.
    pub fn ends(self) -> Ends {
        self.ends
    }
}

impl From<Setting> for raw::Setting {
    fn from(setting: Setting) -> raw::Setting {
        raw::Setting {
            length: setting.length,
            gaps: setting.gaps,
            directions: setting.directions.bits(),
            mode: setting.mode.number(),
            ends: setting.ends.number(),
        }
    }
}
