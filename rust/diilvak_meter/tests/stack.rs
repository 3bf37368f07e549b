//! A call in a thread with no more stack than the header says it finds room in. One that takes more ends the
//! whole run.
use diilvak_meter::limits::STACK;
use diilvak_meter::{raw, Figure, Meter};

/// What the thread itself takes: its start, its thread-local storage, and the frames of this test.
const THREAD: usize = 16 * 1024;

/// The word, or the number of the refusal, in a thread of this stack.
fn within(stack: usize, meter: Meter) -> Result<u16, usize> {
    let call = move || {
        let mut word = 0;
        match raw::word(meter.into(), &mut word) {
            0 => Ok(word),
            number => Err(number),
        }
    };
    let thread = std::thread::Builder::new().stack_size(stack + THREAD);
    thread.spawn(call).unwrap().join().unwrap()
}

#[test]
fn word() {
    let dark = Figure::Drifting(7.25, 7.75);
    assert_eq!(within(STACK, Meter { lamp: Figure::Drifting(10.0, 10.25), dark }), Ok(65533));
    assert_eq!(within(STACK, Meter { lamp: Figure::Steady(f32::NAN), dark }), Err(19));
}
