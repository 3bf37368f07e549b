//! Single steps.
use checking::lent::Lent;
use checking::plate::{bad_size, Direction};
use diilvak::raw;

/// Every step on small plates, and all that is answered like leaving.
#[test]
fn steps_are_the_table() {
    let far = [6, 100, usize::MAX];
    let mut sizes: Vec<(usize, usize)> = vec![(1024, 64), (64, 1024)];
    sizes.extend([(0, 3), (3, 0), (1025, 1), (1, 1025), (257, 256), (usize::MAX, 2)]);
    sizes.extend((1..=4).flat_map(|width| (1..=4).map(move |height| (width, height))));
    for (width, height) in sizes {
        let pixels = if bad_size(width, height) { 0 } else { width * height };
        let last = (pixels.saturating_sub(3)..pixels + 2).chain(0..pixels.min(20));
        for place in last.chain([65_536, usize::MAX]) {
            for direction in (0..=17).chain(far) {
                for number in (0..=4).chain(far) {
                    let expected = Direction::of_bit(direction)
                        .filter(|_| place < pixels)
                        .and_then(|direction| direction.step(width, height, place, number));
                    let mut to = Lent::new(1, || 0xdead_beef);
                    let moved =
                        raw::step(width, height, direction, place, number, &mut to.lend()[0]);
                    let call = format!("{width} × {height}, {direction}, {place}, {number}");
                    assert_eq!(moved, usize::from(expected.is_some()), "{call}");
                    assert!(to.guards_untouched(), "{call}");
                    match expected {
                        Some(place) => assert_eq!(to.lend()[0], place, "{call}"),
                        None => assert!(to.untouched(), "{call}"),
                    }
                }
            }
        }
    }
}
