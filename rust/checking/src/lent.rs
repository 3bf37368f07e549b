//! Buffers lent to a call.

/// A lent buffer that remembers what it held, with guards on both sides.
pub struct Lent<T> {
    now: Vec<T>,
    before: Vec<T>,
}

const GUARD: usize = 32;

impl<T: Copy + PartialEq> Lent<T> {
    pub fn new(length: usize, mut draw: impl FnMut() -> T) -> Lent<T> {
        let now: Vec<T> = (0..length + 2 * GUARD).map(|_| draw()).collect();
        Lent { before: now.clone(), now }
    }

    /// With these numbers between the guards.
    pub fn holding(numbers: &[T], draw: impl FnMut() -> T) -> Lent<T> {
        let mut lent = Lent::new(numbers.len(), draw);
        lent.lend().copy_from_slice(numbers);
        lent.before.copy_from_slice(&lent.now);
        lent
    }

    pub fn lend(&mut self) -> &mut [T] {
        let end = self.now.len() - GUARD;
        &mut self.now[GUARD..end]
    }

    pub fn untouched(&self) -> bool {
        self.now == self.before
    }

    pub fn guards_untouched(&self) -> bool {
        let end = self.now.len() - GUARD;
        self.now[..GUARD] == self.before[..GUARD] && self.now[end..] == self.before[end..]
    }
}
