//! The meter that the add-on is held against, held to the worked figures and to a list of all numbers that may
//! be reported. Needs no library.
use checking::cases::rounds;
use checking::figures::{any_number, bits_of, quarters, worked, BAD, MAX_QUARTERS};
use checking::meter::{number, Figure, Meter};
use checking::random::Random;
use checking::Refusal;
use std::collections::HashMap;

#[test]
fn worked_figures() {
    for (meter, word) in worked() {
        assert_eq!(meter.word(), Ok(word), "{meter:x?}");
    }
}

#[test]
fn bad_numbers() {
    for (name, bits) in BAD {
        let meter = Meter { lamp: Figure::Drifting(0, bits), dark: Figure::Steady(0) };
        assert_eq!(meter.word(), Err(Refusal { number: 19, place: 0 }), "{name}");
    }
}

/// The encoding that the tests draw numbers by: the bits by hand, and the processor's own.
#[test]
fn bits() {
    let by_hand = [(1, 0x3e80_0000), (10, 0x4020_0000), (41, 0x4124_0000), (32_768, 0x4600_0000)];
    for (count, bits) in by_hand {
        assert_eq!(quarters(count), bits, "{count}");
    }
    for count in 0..=4 * MAX_QUARTERS {
        assert_eq!(bits_of(count, -4), (count as f32 / 16.0).to_bits(), "{count}");
    }
}

/// Taken apart by its bits, a number is accepted where it is in the list, and is as many quarters as it has
/// there.
fn judged_by_the_list(list: &HashMap<u32, u32>, bits: u32) -> bool {
    let found = number(bits).map(|number| (4 * number.over, number.under));
    match list.get(&bits) {
        Some(&count) => {
            let (over, under) = found.unwrap_or_else(|| panic!("{bits:#x} is refused"));
            assert_eq!(over, i64::from(count) * under, "{bits:#x}");
        }
        None => assert_eq!(found, None, "{bits:#x}"),
    }
    found.is_some()
}

fn every_number() -> HashMap<u32, u32> {
    let minus_zero = (0x8000_0000, 0);
    (0..=MAX_QUARTERS).map(|count| (quarters(count), count)).chain([minus_zero]).collect()
}

#[test]
fn numbers_by_the_list() {
    let list = every_number();
    assert_eq!(list.len(), 32_770);
    assert!(list.keys().all(|&bits| judged_by_the_list(&list, bits)));
    let mut random = Random(91);
    for _ in 0..rounds(1_000_000, 10_000_000) {
        judged_by_the_list(&list, any_number(&mut random));
        judged_by_the_list(&list, random.draw() as u32);
    }
}

/// In the long run all 4,294,967,296 numbers: as many are accepted as the list has.
#[test]
fn as_many_numbers_as_the_list_has() {
    // The short run leaves out those of an exponent above 8,192's, and all below zero but minus zero.
    let last = rounds(0x4680_0000, 0xffff_ffff) as u32;
    let accepted = (0..=last).filter(|&bits| number(bits).is_some()).count();
    assert_eq!(accepted, if last > 0x8000_0000 { 32_770 } else { 32_769 });
}
