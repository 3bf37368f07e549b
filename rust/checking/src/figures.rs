//! Figures of the lamp meter (document 02, N6), their numbers by their bits: the worked ones, numbers that may
//! not be reported, and random ones.
use crate::meter::{Figure, Meter};
use crate::random::Random;

/// 8,192 in quarters.
pub const MAX_QUARTERS: u32 = 32_768;

const SIGN: u32 = 0x8000_0000;
/// 8,192.
const MOST: u32 = 0x4600_0000;

/// The worked figures, and their words.
pub fn worked() -> Vec<(Meter, u16)> {
    use Figure::{Drifting, Steady};
    let (zero, quarter, half, two_and_a_half) = (0, 0x3e80_0000, 0x3f00_0000, 0x4020_0000);
    let (seven_and_a_half, ten, ten_and_a_quarter) = (0x40f0_0000, 0x4120_0000, 0x4124_0000);
    let worked = [
        (Steady(two_and_a_half), Steady(zero), 65_533),
        (Steady(zero), Steady(two_and_a_half), 3),
        (Drifting(ten, ten_and_a_quarter), Steady(seven_and_a_half), 65_533),
        (Drifting(quarter, half), Steady(zero), 0),
        (Steady(half), Steady(zero), 65_535),
        (Steady(MOST), Steady(zero), 57_344),
        (Steady(zero), Drifting(MOST, MOST), 8192),
        (Steady(SIGN), Drifting(SIGN, SIGN), 0),
    ];
    worked.into_iter().map(|(lamp, dark, word)| (Meter { lamp, dark }, word)).collect()
}

/// Numbers that may not be reported: those of the documents first, then others that a judgement by float
/// arithmetic or by a conversion could let pass.
pub const BAD: [(&str, u32); 43] = [
    ("0.125", 0x3e00_0000),
    ("8192.25", MOST + 0x100),
    ("-0.25", SIGN | 0x3e80_0000),
    ("a quiet NaN", 0x7fc0_0000),
    ("infinity", 0x7f80_0000),
    ("minus infinity", SIGN | 0x7f80_0000),
    ("the least subnormal", 1),
    ("the least subnormal below zero", SIGN | 1),
    ("a quiet NaN with all bits", 0x7fff_ffff),
    ("a negative quiet NaN", SIGN | 0x7fc0_0000),
    ("a negative quiet NaN with all bits", 0xffff_ffff),
    ("a signalling NaN", 0x7f80_0001),
    ("the last signalling NaN", 0x7fbf_ffff),
    ("a negative signalling NaN", SIGN | 0x7f80_0001),
    ("a NaN with the fraction of 8192.25", 0x7f80_0100),
    ("a subnormal", 0x0040_0000),
    ("the largest subnormal", 0x007f_ffff),
    ("the largest subnormal below zero", SIGN | 0x007f_ffff),
    ("the least normal number", 0x0080_0000),
    ("the least normal number below zero", SIGN | 0x0080_0000),
    ("the largest number", 0x7f7f_ffff),
    ("the largest number below zero", SIGN | 0x7f7f_ffff),
    ("next below 0.25", 0x3e7f_ffff),
    ("next above 0.25", 0x3e80_0001),
    ("next below 8192", MOST - 1),
    ("next above 8192", MOST + 1),
    ("8191.875", MOST - 0x100),
    ("8192.5", MOST + 0x200),
    ("8193", MOST + 0x400),
    ("16384", 0x4680_0000),
    ("0.375", 0x3ec0_0000),
    ("0.0625", 0x3d80_0000),
    ("-1", SIGN | 0x3f80_0000),
    ("-8192", SIGN | MOST),
    ("2^23", 0x4b00_0000),
    ("2^24 + 2", 0x4b80_0001),
    ("2^31", 0x4f00_0000),
    ("2^32", 0x4f80_0000),
    ("2^61", 0x5e00_0000),
    ("2^62", 0x5e80_0000),
    ("2^63", 0x5f00_0000),
    ("2^64", 0x5f80_0000),
    ("2^127", 0x7f00_0000),
];

/// The bits of count × 2 ^ power: zero, or a normal number of at most 24 binary digits.
pub fn bits_of(count: u32, power: i32) -> u32 {
    if count == 0 {
        return 0;
    }
    let leading = count.ilog2();
    // The leading digit is not among the bits.
    let fraction = (count << (23 - leading)) - 0x80_0000;
    ((power + leading as i32 + 127) as u32) << 23 | fraction
}

pub fn quarters(count: u32) -> u32 {
    bits_of(count, -2)
}

/// A number that may be reported.
pub fn any_quarters(random: &mut Random) -> u32 {
    quarters(random.below(MAX_QUARTERS as usize + 1) as u32)
}

/// Any bits, but most of them are, or are next to, numbers that may be reported.
pub fn any_number(random: &mut Random) -> u32 {
    match random.below(16) {
        0 => random.draw() as u32,
        1 => random.pick(&BAD).1,
        2 => any_quarters(random).wrapping_add(1),
        3 => any_quarters(random).wrapping_sub(1),
        4 => any_quarters(random) ^ 1 << random.below(32),
        5 => any_quarters(random) | SIGN,
        6 => bits_of(random.below(65_540) as u32, -3),
        7 => bits_of(random.below(131_080) as u32, -4),
        8 => bits_of(1, random.below(254) as i32 - 126),
        // Around 8,192, a sixteenth apart below it and an eighth above.
        9 => MOST + 0x80 * random.below(65) as u32 - 0x80 * 32,
        10 => random.pick(&[0, SIGN, MOST, quarters(1)]),
        _ => any_quarters(random),
    }
}

/// A figure of these many eighths, up to 65,536.
fn figure_of(random: &mut Random, eighths: u32) -> Figure {
    if eighths % 2 == 0 && random.below(2) == 0 {
        return Figure::Steady(quarters(eighths / 2));
    }
    let low = eighths.saturating_sub(MAX_QUARTERS);
    let first = random.within(low as usize, (eighths - low) as usize) as u32;
    Figure::Drifting(quarters(first), quarters(eighths - first))
}

/// Figures of which the dark one is these many eighths above the lamp one, from -65,536 to 65,536.
pub fn apart(random: &mut Random, eighths: i32) -> Meter {
    let (below, above) = ((-eighths).max(0) as usize, eighths.max(0) as usize);
    let lamp = random.within(below, 2 * MAX_QUARTERS as usize - above) as u32;
    let dark = lamp.checked_add_signed(eighths).expect("from the lamp figure's least on");
    Meter { lamp: figure_of(random, lamp), dark: figure_of(random, dark) }
}
