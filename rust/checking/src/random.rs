//! Plates of fixed seeds: noise, ties, both ends of the range, and plates that look like walls.
use crate::plate::{Plate, DIRECTIONS};

/// SplitMix64: small, and the same on every machine.
pub struct Random(pub u64);

impl Random {
    pub fn draw(&mut self) -> u64 {
        self.0 = self.0.wrapping_add(0x9e37_79b9_7f4a_7c15);
        let mut z = self.0;
        z = (z ^ (z >> 30)).wrapping_mul(0xbf58_476d_1ce4_e5b9);
        z = (z ^ (z >> 27)).wrapping_mul(0x94d0_49bb_1331_11eb);
        z ^ (z >> 31)
    }

    /// A number below n.
    pub fn below(&mut self, n: usize) -> usize {
        (self.draw() % n as u64) as usize
    }

    /// A number from `low` to `high`, both included.
    pub fn within(&mut self, low: usize, high: usize) -> usize {
        low + self.below(high - low + 1)
    }

    pub fn pick<T: Copy>(&mut self, from: &[T]) -> T {
        from[self.below(from.len())]
    }
}

/// The ends of the range and the middle, where signs, mirrors and 'no path' go wrong first.
pub const EDGE_LEVELS: [i16; 8] = [-32_768, -32_767, -2, -1, 0, 1, 32_766, 32_767];

#[derive(Clone, Copy, Debug, PartialEq, Eq)]
pub enum Kind {
    /// Any level.
    Noise,
    /// Levels at the ends of the range and around zero.
    Edges,
    /// Two to four levels, next to each other: ties on most paths.
    Ties,
    /// One level.
    Flat,
    /// Corrected readings with a few bright broken curves.
    Wall,
    /// A slope with a little noise: long paths of slowly changing level.
    Slope,
}

pub const KINDS: [Kind; 6] =
    [Kind::Noise, Kind::Edges, Kind::Ties, Kind::Flat, Kind::Wall, Kind::Slope];

pub fn plate(random: &mut Random, kind: Kind, width: usize, height: usize) -> Plate {
    let levels = levels(random, kind, width, height);
    Plate::new(width, height, levels).expect("sizes within the limits")
}

fn levels(random: &mut Random, kind: Kind, width: usize, height: usize) -> Vec<i16> {
    let places = 0..width * height;
    match kind {
        Kind::Noise => places.map(|_| random.draw() as i16).collect(),
        Kind::Edges => places.map(|_| random.pick(&EDGE_LEVELS)).collect(),
        Kind::Ties => {
            let base = random.pick(&[-32_768, -2, 0, 1000, 32_764]);
            let several = random.within(2, 4);
            places.map(|_| base + random.below(several) as i16).collect()
        }
        Kind::Flat => vec![random.pick(&EDGE_LEVELS); width * height],
        Kind::Wall => wall(random, width, height),
        Kind::Slope => {
            let tilt = random.within(1, 40);
            places.map(|p| ((p % width + p / width) * tilt + random.below(60)) as i16).collect()
        }
    }
}

/// Corrected 12-bit noise, crossed by bright curves that wander in a direction and break now and then.
fn wall(random: &mut Random, width: usize, height: usize) -> Vec<i16> {
    let mut levels: Vec<i16> =
        (0..width * height).map(|_| random.below(3000) as i16 - 500).collect();
    for _ in 0..(width + height) / 12 + 1 {
        let direction = &DIRECTIONS[random.below(DIRECTIONS.len())];
        let mut place = random.below(width * height);
        for _ in 0..random.within(10, 10 + width + height) {
            if random.below(12) > 0 {
                levels[place] = 2500 + random.below(1595) as i16;
            }
            match direction.step(width, height, place, random.below(3)) {
                Some(next) => place = next,
                None => break,
            }
        }
    }
    levels
}
