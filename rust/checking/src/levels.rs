//! The textbook method (source 000, equations 1 to 5; gaps as in source 001): for every level of the
//! plate, scan each direction forwards and backwards for the paths on either side of a pixel, and keep
//! the pixels with a path of L in all. Simple, and as slow as the plate has levels.
//!
//! Where paths may end anywhere, the longest on either side says it all. Where they end on crack, every
//! length that a path can have is kept, since one of exactly L is asked for.
use crate::plate::{Bordered, Direction, Plate, Setting, EAST, ON_CRACK, SOUTH_EAST};

/// The opened or closed plate.
///
/// # Panics
///
/// Where paths have to end on crack and are longer than 128 pixels.
pub fn filter(plate: &Plate, setting: Setting) -> Plate {
    if setting.ends == ON_CRACK {
        assert!(setting.length <= AnyLength::MOST, "lengths are the bits of one number");
        open::<AnyLength>(plate, setting)
    } else {
        open::<Longest>(plate, setting)
    }
}

fn open<S: Side>(plate: &Plate, setting: Setting) -> Plate {
    let bordered = Bordered::of(plate);
    let keys = plate.keys(setting.mode);
    let mut thresholds = keys.clone();
    thresholds.sort_unstable();
    thresholds.dedup();
    let mut opened = vec![0; keys.len()];
    for direction in setting.chosen() {
        let mut scan = Scan::<S>::new(bordered, direction, setting.gaps);
        for &threshold in &thresholds {
            scan.measure(&keys, threshold);
            for (p, opened) in opened.iter_mut().enumerate() {
                if keys[p] >= threshold && scan.crossed(bordered.position(p), setting.length) {
                    *opened = threshold.max(*opened);
                }
            }
        }
    }
    plate.of_keys(setting.mode, &opened)
}

/// What is known of the paths on one side of a pixel, the pixel counted. The default is that there are
/// none, as on the border.
trait Side: Copy + Default {
    /// The paths of a pixel from those of the pixels that it leads to: at the threshold or, else, as a
    /// gap.
    fn onward(next: [Self; 3], kept: bool) -> Self;

    /// Is there a path of this length through a pixel that is not below the threshold?
    fn joined(ahead: Self, behind: Self, length: usize) -> bool;
}

/// The length of the longest path; every shorter one is a part of it.
#[derive(Clone, Copy, Default)]
struct Longest(u16);

impl Side for Longest {
    fn onward([a, b, c]: [Longest; 3], _: bool) -> Longest {
        Longest(1 + a.0.max(b.0).max(c.0))
    }

    fn joined(ahead: Longest, behind: Longest, length: usize) -> bool {
        usize::from(ahead.0 + behind.0) > length
    }
}

/// Bit n stands for a path of n + 1 pixels whose far end is not below the threshold.
#[derive(Clone, Copy, Default)]
struct AnyLength(u128);

impl AnyLength {
    const MOST: usize = 128;
}

impl Side for AnyLength {
    fn onward([a, b, c]: [AnyLength; 3], kept: bool) -> AnyLength {
        AnyLength((a.0 | b.0 | c.0) << 1 | u128::from(kept))
    }

    fn joined(ahead: AnyLength, behind: AnyLength, length: usize) -> bool {
        // n + 1 pixels ahead and L − n behind, for some n: the pixel stands in both.
        ahead.0 & behind.0.reverse_bits() >> (AnyLength::MOST - length) != 0
    }
}

/// For each gap count 0 to k the paths that start (`ahead`) and that end (`behind`) at each pixel, with
/// at most so many pixels below the threshold.
struct Scan<S> {
    /// All places with their positions, a pixel before those that its steps lead to.
    order: Vec<(u32, u32)>,
    /// From a position to those that the steps lead to.
    steps: [isize; 3],
    ahead: Vec<Vec<S>>,
    behind: Vec<Vec<S>>,
}

impl<S: Side> Scan<S> {
    fn new(bordered: Bordered, direction: &Direction, gaps: usize) -> Scan<S> {
        let Bordered { width, height } = bordered;
        let mut order: Vec<usize> = (0..width * height).collect();
        // Row by row in the direction of the walk, since memory likes that; east goes by columns.
        order.sort_by_key(|&p| match direction.bit {
            EAST => (p % width, p / width),
            SOUTH_EAST => (p / width, p % width),
            _ => (height - 1 - p / width, p % width),
        });
        let planes = vec![vec![S::default(); bordered.positions()]; gaps + 1];
        Scan {
            order: order.iter().map(|&p| (p as u32, bordered.position(p) as u32)).collect(),
            steps: bordered.offsets(direction),
            ahead: planes.clone(),
            behind: planes,
        }
    }

    fn measure(&mut self, keys: &[u16], threshold: u16) {
        let kept = |p: u32| keys[p as usize] >= threshold;
        sweep(&mut self.ahead, self.order.iter().rev(), self.steps, kept);
        sweep(&mut self.behind, self.order.iter(), self.steps.map(|step| -step), kept);
    }

    /// Does a path of this length cross a pixel that is not below the threshold?
    fn crossed(&self, position: usize, length: usize) -> bool {
        let mut halves = self.ahead.iter().zip(self.behind.iter().rev());
        halves.any(|(ahead, behind)| S::joined(ahead[position], behind[position], length))
    }
}

/// The paths at a position go on from the pixels that it leads to, which the sweep has passed. A pixel
/// below the threshold spends a gap, and without one no path enters it.
fn sweep<'a, S: Side>(
    planes: &mut [Vec<S>],
    order: impl Iterator<Item = &'a (u32, u32)> + Clone,
    next: [isize; 3],
    kept: impl Fn(u32) -> bool,
) {
    for gaps in 0..planes.len() {
        let (fewer, rest) = planes.split_at_mut(gaps);
        let (fewer, plane) = (fewer.last(), &mut rest[0]);
        for &(p, position) in order.clone() {
            let position = position as usize;
            let onward = |plane: &Vec<S>, kept| {
                S::onward(next.map(|step| plane[position.wrapping_add_signed(step)]), kept)
            };
            plane[position] = match kept(p) {
                true => onward(plane, true),
                false => fewer.map_or(S::default(), |plane| onward(plane, false)),
            };
        }
    }
}
