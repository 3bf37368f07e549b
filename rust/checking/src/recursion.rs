//! The published decomposition (source 001, formula 4) on grey levels, written down as it stands: for
//! each number of pixels and each gap count the highest level at which a walk from a pixel counts, on
//! either side of it, and both sides joined at every pixel. It takes memory for every length up to L, and
//! can do both kinds of ends, since they differ in the walk of one pixel alone: one that may be a gap
//! counts at every level where there is a gap to spend, and an end on crack never above its own.
use crate::plate::{Bordered, Direction, Plate, Setting, ON_CRACK};
use std::ops::Range;

/// The opened or closed plate.
pub fn filter(plate: &Plate, setting: Setting) -> Plate {
    let keys = plate.keys(setting.mode);
    let mut opened = vec![0; keys.len()];
    for direction in setting.chosen() {
        if direction.span(plate.width(), plate.height()) >= setting.length {
            open(Bordered::of(plate), &keys, direction, setting, &mut opened);
        }
    }
    plate.of_keys(setting.mode, &opened)
}

/// For each gap count 0 to k and each position the highest key at which some walk of so many pixels
/// counts; 0 where there is none, at which every path counts anyhow.
type Walks = Vec<Vec<u16>>;

/// One direction.
fn open(
    bordered: Bordered,
    keys: &[u16],
    direction: &Direction,
    setting: Setting,
    opened: &mut [u16],
) {
    let mut own = vec![0; bordered.positions()];
    for (p, &key) in keys.iter().enumerate() {
        own[bordered.position(p)] = key;
    }
    let ahead = bordered.offsets(direction);
    let behind = ahead.map(|step| -step);
    // By rising number of pixels; taken from the end, each meets the walks behind that make it L in all.
    let mut all_ahead = vec![single(bordered, &own, setting)];
    for _ in 1..setting.length {
        all_ahead.push(longer(bordered, &own, &all_ahead[all_ahead.len() - 1], ahead));
    }
    let mut walks_behind = single(bordered, &own, setting);
    while let Some(walks_ahead) = all_ahead.pop() {
        join(bordered, keys, &walks_ahead, &walks_behind, opened);
        if !all_ahead.is_empty() {
            walks_behind = longer(bordered, &own, &walks_behind, behind);
        }
    }
}

/// The walks of one pixel, which is an end of the path.
fn single(bordered: Bordered, own: &[u16], setting: Setting) -> Walks {
    let mut walks = vec![own.to_vec(); setting.gaps + 1];
    if setting.ends != ON_CRACK {
        for plane in &mut walks[1..] {
            for row in bordered.rows() {
                plane[row].fill(u16::MAX);
            }
        }
    }
    walks
}

/// The walks of one pixel more: the pixel is not below the level, or spends a gap.
fn longer(bordered: Bordered, own: &[u16], shorter: &Walks, steps: [isize; 3]) -> Walks {
    let none = vec![0; own.len()];
    let mut walks = vec![none.clone(); shorter.len()];
    for (gaps, plane) in walks.iter_mut().enumerate() {
        let fewer = if gaps == 0 { &none } else { &shorter[gaps - 1] };
        for row in bordered.rows() {
            let [a, b, c] = led_to(&shorter[gaps], &row, steps);
            let [d, e, f] = led_to(fewer, &row, steps);
            let own = &own[row.clone()];
            for (i, best) in plane[row.clone()].iter_mut().enumerate() {
                let kept = own[i].min(a[i].max(b[i]).max(c[i]));
                *best = kept.max(d[i].max(e[i]).max(f[i]));
            }
        }
    }
    walks
}

/// The numbers that the steps from a row lead to: whole rows, so that the compiler takes several at once.
fn led_to<'a>(plane: &'a [u16], row: &Range<usize>, steps: [isize; 3]) -> [&'a [u16]; 3] {
    steps.map(|step| &plane[row.start.wrapping_add_signed(step)..][..row.len()])
}

/// Both sides at every pixel. It stands in both, and is a gap in neither, since it keeps at most its own
/// level; so the gaps of the two sides are those of the path.
fn join(bordered: Bordered, keys: &[u16], ahead: &Walks, behind: &Walks, opened: &mut [u16]) {
    for (ahead, behind) in ahead.iter().zip(behind.iter().rev()) {
        for (p, position) in bordered.rows().flatten().enumerate() {
            let joined = ahead[position].min(behind[position]).min(keys[p]);
            opened[p] = opened[p].max(joined);
        }
    }
}
