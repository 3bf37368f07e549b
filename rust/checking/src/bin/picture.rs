//! Draws a plate with a faint, broken crack, the opened plate, and the path that the library traces
//! through its brightest pixel: `cargo run --release --bin picture [FILE.png]`. The same picture every
//! time.
use checking::drawing::{cracked_wall, picture, Greys, RED};
use diilvak::{filter, trace, Directions, Ends, Mode, Plate, Setting};

const WIDTH: usize = 180;
const HEIGHT: usize = 120;

fn main() -> std::io::Result<()> {
    let file = std::env::args().nth(1).unwrap_or_else(|| "crack.png".to_string());
    let plate = Plate::new(WIDTH, HEIGHT, cracked_wall(WIDTH, HEIGHT)).expect("within the limits");
    let setting = Setting::new(120, 8, Directions::ALL, Mode::Opening, Ends::Anywhere)
        .expect("within the limits");
    let opened = filter(&plate, setting);
    let brightest = (0..plate.pixels()).max_by_key(|&p| opened.levels()[p]).expect("has pixels");
    let shown = trace(&plate, setting, brightest).expect("a path crosses it");
    println!("level {} at place {brightest}, direction {:?}", shown.level, shown.direction);

    // Both plates have the same greys.
    let greys = Greys::of(plate.levels());
    let mut traced = greys.panel(plate.levels());
    for &p in &shown.path {
        traced[p] = RED;
    }
    let panels = [greys.panel(plate.levels()), greys.panel(opened.levels()), traced];
    std::fs::write(&file, picture(WIDTH, &panels))
}
