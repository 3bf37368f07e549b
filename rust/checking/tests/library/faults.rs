//! Calls with any numbers and buffers, drawn: most of each call is right, and faults come in any mixture.
use checking::plate::bad_size;
use checking::random::Random;
use checking::table::Lengths;
use checking::Setting;

/// A size: mostly a small one, else one at or past the limits.
pub fn any_size(random: &mut Random) -> (usize, usize) {
    const SIDES: [usize; 8] = [0, 1, 257, 1024, 1025, 65_536, 1 << 32, usize::MAX];
    match random.below(6) {
        // With both sides at 257 or 1024 the product is too large.
        0 => (random.pick(&SIDES), random.pick(&SIDES)),
        1 => (random.within(1, 5), random.pick(&[0, 1025, usize::MAX])),
        _ => (random.within(1, 5), random.within(1, 5)),
    }
}

pub fn any_setting(random: &mut Random) -> Setting {
    let mut draw = |right: [usize; 2], wrong: &[usize]| match random.below(8) {
        0 => random.pick(wrong),
        _ => random.within(right[0], right[1]),
    };
    let length = draw([1, 7], &[0, 9, 1024, 1025, usize::MAX]);
    let gaps = draw([0, length.clamp(1, 9) - 1], &[8, 9, length, usize::MAX]);
    let directions = draw([1, 15], &[0, 16, usize::MAX]);
    let mode = draw([0, 1], &[2, usize::MAX]);
    Setting { length, gaps, directions, mode, ends: draw([0, 1], &[2, usize::MAX]) }
}

/// The right length, or now and then another near it.
pub fn any_length(random: &mut Random, right: usize) -> usize {
    let right = right.min(4000);
    match random.below(12) {
        0 => 0,
        1 => right.saturating_sub(1),
        2 => right + 1,
        _ => right,
    }
}

/// A work buffer for the setting, or now and then another. Calls of full plates that are not refused belong
/// to other tests.
fn any_work(random: &mut Random, setting: Setting, pixels: usize) -> usize {
    let work = any_length(random, 4 * (setting.gaps.min(8) + 1) * pixels);
    if pixels > 400 {
        work.min(3000)
    } else {
        work
    }
}

/// A trace of which anything may be wrong.
pub struct AnyCall {
    pub size: (usize, usize),
    /// How many pixels there are, or, where the size is wrong, a few.
    pub pixels: usize,
    pub setting: Setting,
    pub at: usize,
    pub lengths: Lengths,
}

pub fn any_call(random: &mut Random) -> AnyCall {
    let size = any_size(random);
    let pixels = if bad_size(size.0, size.1) { 5 } else { size.0 * size.1 };
    let setting = any_setting(random);
    let lengths = Lengths {
        plate: any_length(random, pixels),
        result: any_length(random, setting.length),
        work: any_work(random, setting, pixels),
    };
    let past = random.pick(&[pixels, pixels + 1, usize::MAX]);
    let at = if random.below(8) == 0 { past } else { random.below(pixels) };
    AnyCall { size, pixels, setting, at, lengths }
}
