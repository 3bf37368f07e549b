//! The lamp meter's correction (document 02, N6): numbers are taken apart by their bits, as IEEE 754 lays them
//! out, sums are done in fractions of whole numbers, and the correction is the whole number nearest to the
//! difference. No float is calculated with.
use crate::Refusal;

/// A figure, with its numbers by their bits, right or wrong.
#[derive(Clone, Copy, Debug, PartialEq, Eq)]
pub enum Figure {
    Steady(u32),
    Drifting(u32, u32),
}

#[derive(Clone, Copy, Debug, PartialEq, Eq)]
pub struct Meter {
    pub lamp: Figure,
    pub dark: Figure,
}

/// over / under, with `under` above 0.
#[derive(Clone, Copy, Debug)]
pub struct Fraction {
    pub over: i64,
    pub under: i64,
}

impl Fraction {
    fn plus(self, other: Fraction) -> Fraction {
        let over = self.over * other.under + other.over * self.under;
        Fraction { over, under: self.under * other.under }
    }

    fn less(self, other: Fraction) -> Fraction {
        self.plus(Fraction { over: -other.over, ..other })
    }

    fn halved(self) -> Fraction {
        Fraction { under: 2 * self.under, ..self }
    }

    /// The nearest whole number, and of two that are equally near the one further from zero.
    fn nearest(self) -> i64 {
        let below = self.over.div_euclid(self.under);
        let distance = |whole: i64| (whole * self.under - self.over).abs();
        let both = [below, below + 1];
        both.into_iter().min_by_key(|&whole| (distance(whole), -whole.abs())).expect("two")
    }
}

/// The number of these bits, where the meter may report it.
pub fn number(bits: u32) -> Option<Fraction> {
    let (exponent, fraction) = (bits >> 23 & 0xff, bits & 0x7f_ffff);
    // The number is digits × 2 ^ power.
    let (digits, power) = match exponent {
        // An infinity or a NaN.
        0xff => return None,
        // Subnormal, or zero.
        0 => (fraction, -149),
        _ => (fraction + 0x80_0000, exponent as i32 - 150),
    };
    if digits == 0 {
        return Some(Fraction { over: 0, under: 1 });
    }
    if bits >> 31 == 1 {
        return None;
    }
    // In lowest terms a count of quarters has no other denominators than 1, 2 and 4.
    let twos = digits.trailing_zeros();
    let (odd, power) = (i64::from(digits >> twos), power + twos as i32);
    let number = match power {
        -2 | -1 => Fraction { over: odd, under: 1 << -power },
        0..=13 => Fraction { over: odd << power, under: 1 },
        _ => return None,
    };
    (number.over <= 8192 * number.under).then_some(number)
}

impl Figure {
    /// Its number, or the mean of its two, where all of them may be reported.
    fn mean(self) -> Option<Fraction> {
        match self {
            Figure::Steady(bits) => number(bits),
            Figure::Drifting(first, second) => Some(number(first)?.plus(number(second)?).halved()),
        }
    }
}

impl Meter {
    pub fn correction(self) -> Result<i64, Refusal> {
        let refusal = Refusal { number: 19, place: 0 };
        let lamp = self.lamp.mean().ok_or(refusal)?;
        let dark = self.dark.mean().ok_or(refusal)?;
        Ok(dark.less(lamp).nearest())
    }

    /// The correction modulo 65,536.
    pub fn word(self) -> Result<u16, Refusal> {
        self.correction().map(|correction| correction.rem_euclid(0x1_0000) as u16)
    }
}
