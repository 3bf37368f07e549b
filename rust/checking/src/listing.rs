//! Opening and closing by the definition (section 3; the ends of paths: document 02, N5): list all paths,
//! take the best through each pixel. Exponential in the length, so for small plates; nothing here is
//! clever, which is its point. The judge holds a trace to every sentence of demand 3.
use crate::plate::{mirrored, Direction, Plate, Refusal, Setting, Trace, CLOSING, ON_CRACK};

/// Hands every path of the setting's length, in every chosen direction, to `visit`.
pub fn each_path(
    width: usize,
    height: usize,
    setting: Setting,
    mut visit: impl FnMut(&Direction, &[usize]),
) {
    for direction in setting.chosen() {
        for start in 0..width * height {
            let mut path = vec![start];
            extend(width, height, setting.length, direction, &mut path, &mut visit);
        }
    }
}

fn extend(
    width: usize,
    height: usize,
    length: usize,
    direction: &Direction,
    path: &mut Vec<usize>,
    visit: &mut impl FnMut(&Direction, &[usize]),
) {
    if path.len() == length {
        return visit(direction, path);
    }
    let last = path[path.len() - 1];
    for number in 0..3 {
        if let Some(next) = direction.step(width, height, last, number) {
            path.push(next);
            extend(width, height, length, direction, path, visit);
            path.pop();
        }
    }
}

/// Whether a path counts at a level: at most k of its pixels are below it (closing: above it), and
/// where it has to end on crack, neither its first nor its last.
pub fn admits(plate: &Plate, setting: Setting, level: i16, path: &[usize]) -> bool {
    let missing = |p: usize| {
        let own = plate.levels()[p];
        if setting.mode == CLOSING {
            own > level
        } else {
            own < level
        }
    };
    let gaps = path.iter().filter(|&&p| missing(p)).count();
    let ends_missing = missing(path[0]) || missing(path[path.len() - 1]);
    gaps <= setting.gaps && !(setting.ends == ON_CRACK && ends_missing)
}

/// The opened or closed plate.
pub fn filter(plate: &Plate, setting: Setting) -> Plate {
    let own: Vec<i16> = plate.levels().iter().map(|&v| mirrored(v, setting.mode)).collect();
    let mut opened = vec![i16::MIN; own.len()];
    each_path(plate.width(), plate.height(), setting, |_, path| {
        // The highest level at which the path counts is its (k + 1)-th lowest: at most k are below
        // that, and k + 1 are below anything higher. One that ends on crack counts no higher than
        // the lower of its ends.
        let mut levels: Vec<i16> = path.iter().map(|&p| own[p]).collect();
        let lower_end = levels[0].min(levels[levels.len() - 1]);
        let (_, &mut mut highest, _) = levels.select_nth_unstable(setting.gaps);
        if setting.ends == ON_CRACK {
            highest = highest.min(lower_end);
        }
        for &p in path {
            opened[p] = opened[p].max(highest.min(own[p]));
        }
    });
    plate.with(opened.iter().map(|&v| mirrored(v, setting.mode)).collect())
}

/// A trace by the definition: of the paths through a pixel, the first that reaches its filtered level.
pub fn trace(plate: &Plate, setting: Setting, at: usize) -> Result<Trace, Refusal> {
    let level = filter(plate, setting).levels()[at];
    let mut shown = Err(Refusal { number: 12, place: 0 });
    each_path(plate.width(), plate.height(), setting, |direction, path| {
        if shown.is_err() && path.contains(&at) && admits(plate, setting, level, path) {
            shown = Ok(Trace { direction: direction.bit, level, path: path.to_vec() });
        }
    });
    shown
}

/// Demand 3 of a trace at a pixel, sentence by sentence: `answer` is the trace, `filtered` what the
/// filter made of the same plate by the same setting, and `again` the trace of that filtered plate.
/// The error says which sentence is broken.
pub fn judge(
    plate: &Plate,
    setting: Setting,
    at: usize,
    answer: &Result<Trace, Refusal>,
    filtered: &Plate,
    again: &Result<Trace, Refusal>,
) -> Result<(), String> {
    let mut crossed = false;
    let mut higher = false;
    let own = plate.levels()[at];
    // One level further towards the pixel's own, if that is not passed. No path counts at any level
    // beyond one at which none counts, so this level stands for all.
    let beyond = answer.as_ref().ok().and_then(|trace| match setting.mode {
        CLOSING => (trace.level > own).then(|| trace.level - 1),
        _ => (trace.level < own).then(|| trace.level + 1),
    });
    each_path(plate.width(), plate.height(), setting, |_, path| {
        if path.contains(&at) {
            crossed = true;
            higher |= beyond.is_some_and(|level| admits(plate, setting, level, path));
        }
    });
    match answer {
        Err(Refusal { number: 12, place: 0 }) if crossed => {
            Err("refused although a path crosses the pixel".to_string())
        }
        Err(Refusal { number: 12, place: 0 }) => Ok(()),
        Err(refusal) => Err(format!("wrong {refusal}")),
        Ok(_) if !crossed => Err("accepted although no path crosses the pixel".to_string()),
        Ok(_) if higher => Err("a path counts at a level nearer to the pixel's own".to_string()),
        Ok(trace) => judge_shown(plate, setting, at, trace, filtered, again),
    }
}

/// The sentences of demand 3 that need no listing, so they can be asked of any plate: the path
/// shown, the level reported, and the second trace.
pub fn judge_shown(
    plate: &Plate,
    setting: Setting,
    at: usize,
    trace: &Trace,
    filtered: &Plate,
    again: &Result<Trace, Refusal>,
) -> Result<(), String> {
    judge_path(plate, setting, at, trace)?;
    if trace.level != filtered.levels()[at] {
        return Err("the level is not the filtered plate's".to_string());
    }
    match again {
        Err(refusal) => Err(format!("the filtered plate's trace: {refusal}")),
        Ok(second) if second.level != trace.level => {
            Err("the filtered plate's trace reports another level".to_string())
        }
        Ok(second) => judge_path(filtered, setting, at, second)
            .map_err(|fault| format!("the filtered plate's trace: {fault}")),
    }
}

/// A path of L pixels through the pixel, every step of the one chosen direction that is named, which
/// counts at the level reported, a level not beyond the pixel's own.
fn judge_path(plate: &Plate, setting: Setting, at: usize, trace: &Trace) -> Result<(), String> {
    let Some(direction) = setting.chosen().find(|direction| direction.bit == trace.direction)
    else {
        return Err("not a chosen direction".to_string());
    };
    if trace.path.len() != setting.length {
        return Err("not a path of this length".to_string());
    }
    if trace.path.iter().any(|&p| p >= plate.pixels()) {
        return Err("the path leaves the plate".to_string());
    }
    for pair in trace.path.windows(2) {
        let leads = |number| direction.step(plate.width(), plate.height(), pair[0], number);
        if !(0..3).any(|number| leads(number) == Some(pair[1])) {
            return Err("not a step of the direction".to_string());
        }
    }
    if !trace.path.contains(&at) {
        return Err("the path misses the pixel".to_string());
    }
    if !admits(plate, setting, trace.level, &trace.path) {
        return Err("the path does not count at the level".to_string());
    }
    let own = plate.levels()[at];
    let passed = if setting.mode == CLOSING { trace.level < own } else { trace.level > own };
    if passed {
        return Err("the level passes the pixel's own".to_string());
    }
    Ok(())
}
