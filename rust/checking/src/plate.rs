//! Plates, settings, directions and refusals: what all methods share (sections 1 to 5, with the bounds of
//! document 02, N1, and its `ends`, N5). All numbers are bare, so that a setting can be as wrong as a
//! caller can make it.
use std::fmt;
use std::ops::{Range, RangeInclusive};

pub const MAX_SIDE: usize = 1024;
pub const MAX_PIXELS: usize = 65_536;
pub const MAX_READING: u16 = 16_383;
pub const CORRECTIONS: RangeInclusive<i32> = -16_384..=16_383;
pub const MAX_LENGTH: usize = 1024;
pub const MAX_GAPS: usize = 8;

pub const OPENING: usize = 0;
pub const CLOSING: usize = 1;

/// Where a path may end: anywhere, or not at a gap.
pub const ANYWHERE: usize = 0;
pub const ON_CRACK: usize = 1;
pub const BOTH_ENDS: [usize; 2] = [ANYWHERE, ON_CRACK];

pub const NORTH: usize = 1;
pub const EAST: usize = 2;
pub const NORTH_EAST: usize = 4;
pub const SOUTH_EAST: usize = 8;

/// A direction (section 2: way): its bit and its three steps (column change, row change).
pub struct Direction {
    pub bit: usize,
    pub steps: [(isize, isize); 3],
}

/// The step table of section 2.
pub static DIRECTIONS: [Direction; 4] = [
    Direction { bit: NORTH, steps: [(-1, -1), (0, -1), (1, -1)] },
    Direction { bit: EAST, steps: [(1, -1), (1, 0), (1, 1)] },
    Direction { bit: NORTH_EAST, steps: [(1, 0), (1, -1), (0, -1)] },
    Direction { bit: SOUTH_EAST, steps: [(1, 0), (1, 1), (0, 1)] },
];

impl Direction {
    pub fn of_bit(bit: usize) -> Option<&'static Direction> {
        DIRECTIONS.iter().find(|direction| direction.bit == bit)
    }

    /// Where a numbered step from a place of the plate leads, if it stays on the plate.
    pub fn step(&self, width: usize, height: usize, place: usize, number: usize) -> Option<usize> {
        let (across, down) = *self.steps.get(number)?;
        let column = (place % width).checked_add_signed(across)?;
        let row = (place / width).checked_add_signed(down)?;
        (column < width && row < height).then_some(row * width + column)
    }

    /// Every step raises the rank, by one or (a diagonal step of the slanting directions) by two.
    pub fn rank(&self, width: usize, height: usize, place: usize) -> usize {
        let (column, row) = (place % width, place / width);
        match self.bit {
            NORTH => height - 1 - row,
            EAST => column,
            NORTH_EAST => column + (height - 1 - row),
            _ => column + row,
        }
    }

    /// The length of the longest paths. Such a path crosses every pixel.
    pub fn span(&self, width: usize, height: usize) -> usize {
        match self.bit {
            NORTH => height,
            EAST => width,
            _ => width + height - 1,
        }
    }
}

/// The length of a path in pixels, the gaps allowed on it, a sum of direction bits, the mode, and where a
/// path may end.
#[derive(Clone, Copy, Debug, PartialEq, Eq)]
pub struct Setting {
    pub length: usize,
    pub gaps: usize,
    pub directions: usize,
    pub mode: usize,
    pub ends: usize,
}

impl Setting {
    /// With ends anywhere, as all settings of document 01; [`Setting::with_ends`] has the others.
    pub fn new(length: usize, gaps: usize, directions: usize, mode: usize) -> Setting {
        Setting { length, gaps, directions, mode, ends: ANYWHERE }
    }

    pub fn with_ends(self, ends: usize) -> Setting {
        Setting { ends, ..self }
    }

    pub fn chosen(self) -> impl Iterator<Item = &'static Direction> {
        DIRECTIONS.iter().filter(move |direction| self.directions & direction.bit != 0)
    }
}

/// A plate whose size is allowed and whose levels are exactly width × height, row by row.
#[derive(Clone, Debug, PartialEq, Eq)]
pub struct Plate {
    width: usize,
    height: usize,
    levels: Vec<i16>,
}

impl Plate {
    /// Refused with 1 or 6, as the engine would refuse it.
    pub fn new(width: usize, height: usize, levels: Vec<i16>) -> Result<Plate, Refusal> {
        if bad_size(width, height) {
            return Err(Refusal { number: 1, place: 0 });
        }
        if levels.len() != width * height {
            return Err(Refusal { number: 6, place: 0 });
        }
        Ok(Plate { width, height, levels })
    }

    pub fn width(&self) -> usize {
        self.width
    }

    pub fn height(&self) -> usize {
        self.height
    }

    pub fn levels(&self) -> &[i16] {
        &self.levels
    }

    pub fn pixels(&self) -> usize {
        self.levels.len()
    }

    /// A plate of the same size with other levels.
    pub fn with(&self, levels: Vec<i16>) -> Plate {
        assert_eq!(levels.len(), self.pixels());
        Plate { width: self.width, height: self.height, levels }
    }

    /// How far each level stands above the lowest, after the mirror where the mode is closing.
    pub fn keys(&self, mode: usize) -> Vec<u16> {
        self.levels.iter().map(|&v| key(mirrored(v, mode))).collect()
    }

    /// The plate of the same size with these keys.
    pub fn of_keys(&self, mode: usize, keys: &[u16]) -> Plate {
        self.with(keys.iter().map(|&k| mirrored(level(k), mode)).collect())
    }
}

/// The plate within a border of one pixel, so that the fast methods can step without a test: no path
/// enters the border. A position counts the pixels of the bordered plate.
#[derive(Clone, Copy)]
pub struct Bordered {
    pub width: usize,
    pub height: usize,
}

impl Bordered {
    pub fn of(plate: &Plate) -> Bordered {
        Bordered { width: plate.width, height: plate.height }
    }

    fn stride(self) -> usize {
        self.width + 2
    }

    pub fn positions(self) -> usize {
        self.stride() * (self.height + 2)
    }

    pub fn position(self, place: usize) -> usize {
        (place / self.width + 1) * self.stride() + place % self.width + 1
    }

    pub fn place(self, position: usize) -> usize {
        (position / self.stride() - 1) * self.width + position % self.stride() - 1
    }

    /// The positions of the plate's pixels, row by row.
    pub fn rows(self) -> impl Iterator<Item = Range<usize>> {
        (0..self.height).map(move |row| {
            let first = self.position(row * self.width);
            first..first + self.width
        })
    }

    /// From a position to those that the steps lead to.
    pub fn offsets(self, direction: &Direction) -> [isize; 3] {
        direction.steps.map(|(across, down)| down * self.stride() as isize + across)
    }
}

pub fn bad_size(width: usize, height: usize) -> bool {
    let bad_side = |side| side == 0 || side > MAX_SIDE;
    bad_side(width) || bad_side(height) || width * height > MAX_PIXELS
}

/// Section 3: closing mirrors v to −1 − v.
pub fn mirrored(v: i16, mode: usize) -> i16 {
    if mode == CLOSING {
        -1 - v
    } else {
        v
    }
}

fn key(v: i16) -> u16 {
    (i32::from(v) + 32_768) as u16
}

fn level(k: u16) -> i16 {
    (i32::from(k) - 32_768) as i16
}

/// What a trace shows: a path in one direction, and the filtered level of the traced pixel.
#[derive(Clone, Debug, PartialEq, Eq)]
pub struct Trace {
    pub direction: usize,
    pub level: i16,
    pub path: Vec<usize>,
}

/// A refusal of section 5.
#[derive(Clone, Copy, Debug, PartialEq, Eq)]
pub struct Refusal {
    pub number: usize,
    pub place: usize,
}

impl fmt::Display for Refusal {
    fn fmt(&self, f: &mut fmt::Formatter) -> fmt::Result {
        write!(f, "refusal {} at place {}", self.number, self.place)
    }
}
