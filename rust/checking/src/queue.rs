//! The published fast method, Talbot and Appleton's complete and incomplete path openings (sources 000
//! and 003 cite it): the lengths λ+ and λ− of the longest paths on either side of every pixel are kept
//! while the threshold rises. A pixel that falls below it becomes a gap, and the lengths that change are
//! followed by an ordered queue, line after line, so that none is computed twice at a threshold.
//!
//! Two prunings keep it fast. Lengths above L are all kept as L, so a change is followed no further
//! than it matters. And a pixel through which no path of L is left is taken off the plate for good:
//! no later threshold can use it, and changes stop there.
//!
//! It rests on 'a longer path holds one of exactly L', so it is for ends anywhere: a path that ends on
//! crack need not hold a shorter one that does.
use crate::plate::{Bordered, Direction, Plate, Setting, ANYWHERE};

/// The opened or closed plate.
///
/// # Panics
///
/// Where paths have to end on crack.
pub fn filter(plate: &Plate, setting: Setting) -> Plate {
    assert_eq!(setting.ends, ANYWHERE, "longest lengths say nothing of paths that end on crack");
    let keys = plate.keys(setting.mode);
    let order = by_key(&keys);
    let mut opened = vec![0; keys.len()];
    for direction in setting.chosen() {
        if direction.span(plate.width(), plate.height()) >= setting.length {
            open(plate, &keys, &order, direction, setting, &mut opened);
        }
    }
    plate.of_keys(setting.mode, &opened)
}

/// The places by rising key.
fn by_key(keys: &[u16]) -> Vec<u32> {
    let mut starts = vec![0u32; 65_537];
    for &key in keys {
        starts[usize::from(key) + 1] += 1;
    }
    for key in 0..65_536 {
        starts[key + 1] += starts[key];
    }
    let mut order = vec![0; keys.len()];
    for (p, &key) in keys.iter().enumerate() {
        let start = &mut starts[usize::from(key)];
        order[*start as usize] = p as u32;
        *start += 1;
    }
    order
}

/// One direction. As many lengths a pixel as there are gap counts 0 to k: a number that the compiler
/// knows lets it update them together.
fn open(
    plate: &Plate,
    keys: &[u16],
    order: &[u32],
    direction: &Direction,
    setting: Setting,
    opened: &mut [u16],
) {
    let raise = match setting.gaps {
        0 => raise::<1>,
        1 => raise::<2>,
        2 => raise::<3>,
        3 => raise::<4>,
        4 => raise::<5>,
        5 => raise::<6>,
        6 => raise::<7>,
        7 => raise::<8>,
        _ => raise::<9>,
    };
    raise(plate, keys, order, direction, setting.length, opened);
}

/// Raises the threshold from the lowest key to the highest.
fn raise<const N: usize>(
    plate: &Plate,
    keys: &[u16],
    order: &[u32],
    direction: &Direction,
    length: usize,
    opened: &mut [u16],
) {
    let bordered = Bordered::of(plate);
    let mut lengths = Lengths::<N>::new(bordered, direction, length);
    let mut rest = order;
    while let Some(&first) = rest.first() {
        // All pixels of the lowest key left fall below the threshold together.
        let key = keys[first as usize];
        let several = rest.iter().take_while(|&&p| keys[p as usize] == key).count();
        let (falling, higher) = rest.split_at(several);
        rest = higher;
        for &p in falling {
            if lengths.fall(bordered.position(p as usize)) {
                // Paths went through it up to its own level, and it can keep no more.
                let opened = &mut opened[p as usize];
                *opened = key.max(*opened);
            }
        }
        if rest.is_empty() {
            return;
        }
        lengths.settle(|position| {
            // The last level at which a path of L went through this pixel.
            let opened = &mut opened[bordered.place(position)];
            *opened = key.max(*opened);
        });
    }
}

/// A pixel at or above the threshold; otherwise it is a gap.
const KEPT: u8 = 1;
/// A pixel that a path of L still goes through, be it a gap or not.
const LIVE: u8 = 2;

/// The longest paths at every pixel, and the queues of those to be brought up to date.
struct Lengths<const N: usize> {
    length: i16,
    state: Vec<u8>,
    ahead: Side<N>,
    behind: Side<N>,
    changed: Vec<u32>,
}

impl<const N: usize> Lengths<N> {
    /// All pixels are kept: the longest path ahead runs to the last rank, the one behind to the first.
    fn new(bordered: Bordered, direction: &Direction, length: usize) -> Lengths<N> {
        let Bordered { width, height } = bordered;
        let steps = bordered.offsets(direction);
        let span = direction.span(width, height);
        let rank = |p| direction.rank(width, height, p);
        let mut state = vec![0; bordered.positions()];
        for p in 0..width * height {
            state[bordered.position(p)] = KEPT | LIVE;
        }
        Lengths {
            length: length as i16,
            state,
            ahead: Side::new(bordered, span, steps, length, |p| span - 1 - rank(p)),
            behind: Side::new(bordered, span, steps.map(|step| -step), length, rank),
            changed: Vec::new(),
        }
    }

    /// Makes a pixel a gap; its lengths wait to be computed. Answers whether paths went through it.
    fn fall(&mut self, position: usize) -> bool {
        self.state[position] &= !KEPT;
        let live = self.state[position] & LIVE != 0;
        if live {
            self.ahead.push(position);
            self.behind.push(position);
        }
        live
    }

    /// Brings all lengths up to date and takes the pixels without a path of L off the plate, which
    /// needs no update elsewhere: a length that such a pixel lends is part of no path of L either.
    /// Reports those of them that are at or above the threshold.
    fn settle(&mut self, mut report: impl FnMut(usize)) {
        self.ahead.settle(&self.state, self.length, &mut self.changed);
        self.behind.settle(&self.state, self.length, &mut self.changed);
        for position in self.changed.drain(..) {
            let position = position as usize;
            let state = self.state[position];
            let ahead = &mut self.ahead.longest[position];
            let behind = &mut self.behind.longest[position];
            let kept = state & KEPT != 0;
            if state & LIVE != 0 && through(ahead, behind, kept) < self.length {
                self.state[position] = 0;
                *ahead = [0; N];
                *behind = [0; N];
                if kept {
                    report(position);
                }
            }
        }
    }
}

/// The longest path through a pixel with at most N − 1 gaps. The pixel stands in both halves, so
/// where it is a gap it may be counted twice.
fn through<const N: usize>(ahead: &[i16; N], behind: &[i16; N], kept: bool) -> i16 {
    let mut longest = 1;
    let twice = usize::from(!kept);
    for i in twice..N {
        longest = longest.max(ahead[i] + behind[N - 1 - i + twice]);
    }
    longest - 1
}

/// The longest paths on one side of every pixel, the pixel counted, with at most 0 to N − 1 gaps and
/// up to L; and a queue by lines, on which a path of this side goes from higher lines to lower ones.
/// (Lengths are signed since plain x86-64 compares only signed words side by side.)
struct Side<const N: usize> {
    longest: Vec<[i16; N]>,
    /// From a position to those where its path may go on.
    next: [isize; 3],
    line: Vec<u16>,
    /// For each line the first position that waits, and from there the chain of the others.
    first: Vec<u32>,
    chain: Vec<u32>,
    /// A bit for each line on which a position waits.
    waiting: Vec<u64>,
}

/// The end of a chain (a position of the border), and the mark of a position that does not wait.
const END: u32 = 0;
const FREE: u32 = u32::MAX;

impl<const N: usize> Side<N> {
    fn new(
        bordered: Bordered,
        lines: usize,
        next: [isize; 3],
        length: usize,
        line_of: impl Fn(usize) -> usize,
    ) -> Side<N> {
        let mut longest = vec![[0; N]; bordered.positions()];
        let mut line = vec![0; bordered.positions()];
        for p in 0..bordered.width * bordered.height {
            let position = bordered.position(p);
            longest[position] = [length.min(line_of(p) + 1) as i16; N];
            line[position] = line_of(p) as u16;
        }
        Side {
            longest,
            next,
            line,
            first: vec![END; lines],
            chain: vec![FREE; bordered.positions()],
            waiting: vec![0; lines.div_ceil(64)],
        }
    }

    fn push(&mut self, position: usize) {
        if self.chain[position] == FREE {
            let line = usize::from(self.line[position]);
            self.chain[position] = self.first[line];
            self.first[line] = position as u32;
            self.waiting[line / 64] |= 1 << (line % 64);
        }
    }

    /// Computes the lengths of all that waits, lowest line first, and follows every change to the
    /// pixels of higher lines that it may reach. The changed positions are added to `changed`.
    fn settle(&mut self, state: &[u8], length: i16, changed: &mut Vec<u32>) {
        for word in 0..self.waiting.len() {
            while self.waiting[word] != 0 {
                let line = word * 64 + self.waiting[word].trailing_zeros() as usize;
                self.waiting[word] &= self.waiting[word] - 1;
                let mut waits = std::mem::replace(&mut self.first[line], END);
                while waits != END {
                    let position = waits as usize;
                    waits = std::mem::replace(&mut self.chain[position], FREE);
                    let longest = self.longest_at(position, state[position] & KEPT != 0, length);
                    if longest != self.longest[position] {
                        self.longest[position] = longest;
                        changed.push(position as u32);
                        for step in self.next {
                            let before = position.wrapping_add_signed(-step);
                            if state[before] & LIVE != 0 {
                                self.push(before);
                            }
                        }
                    }
                }
            }
        }
    }

    /// A gap takes one of the gaps allowed, and without one no path enters it.
    fn longest_at(&self, position: usize, kept: bool, length: i16) -> [i16; N] {
        let [a, b, c] = self.next.map(|step| &self.longest[position.wrapping_add_signed(step)]);
        let mut on = [0; N];
        for i in 0..N {
            on[i] = length.min(1 + a[i].max(b[i]).max(c[i]));
        }
        if kept {
            return on;
        }
        let mut gap = [0; N];
        gap[1..].copy_from_slice(&on[..N - 1]);
        gap
    }
}
