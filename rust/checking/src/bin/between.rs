//! Draws a wall with a crack that runs into shadow, where light is too poor for one plate: the lowest
//! plate, the highest, and what is kept of the lowest, with white for crack in both results and red for
//! crack in the highest alone: `cargo run --release --bin between [FILE.png]`. The same picture every time.
use checking::drawing::{cracked_wall, picture, Greys, RED, WHITE};
use checking::random::Random;
use diilvak::{filter_between, Bounds, Directions, Ends, Mode, Plate, Setting};

const WIDTH: usize = 120;
const HEIGHT: usize = 80;

/// What is kept at this level or above it is called crack here.
const CRACK: i16 = 1490;

/// The lowest and the highest plate. The shadow begins in the middle, and the further in, the less is known
/// of a pixel.
fn in_shadow() -> Bounds {
    let wall = cracked_wall(WIDTH, HEIGHT);
    let mut random = Random(7);
    let mut doubt = |p: usize| random.below(1 + 3 * (p % WIDTH).saturating_sub(WIDTH / 2)) as i16;
    let lowest = wall.iter().enumerate().map(|(p, level)| level - doubt(p)).collect();
    let highest = wall.iter().enumerate().map(|(p, level)| level + doubt(p)).collect();
    let plate = |levels| Plate::new(WIDTH, HEIGHT, levels).expect("within the limits");
    Bounds { lowest: plate(lowest), highest: plate(highest) }
}

fn main() -> std::io::Result<()> {
    let file = std::env::args().nth(1).unwrap_or_else(|| "between.png".to_string());
    let bounds = in_shadow();
    let setting = Setting::new(50, 4, Directions::ALL, Mode::Opening, Ends::Anywhere)
        .expect("within the limits");
    let kept = filter_between(&bounds, setting).expect("no lowest level is above the highest");
    let (low, high) = (kept.lowest.levels(), kept.highest.levels());

    let greys = Greys::of(bounds.highest.levels());
    let mut shown = greys.panel(low);
    let (mut certain, mut open) = (0, 0);
    for (p, colour) in shown.iter_mut().enumerate() {
        if low[p] >= CRACK {
            certain += 1;
            *colour = WHITE;
        } else if high[p] >= CRACK {
            open += 1;
            *colour = RED;
        }
    }
    println!("{certain} pixels are crack for certain, and {open} others may be");
    let panels = [greys.panel(bounds.lowest.levels()), greys.panel(bounds.highest.levels()), shown];
    std::fs::write(&file, picture(WIDTH, &panels))
}
