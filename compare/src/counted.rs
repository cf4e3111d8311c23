// The counters of the counted copy of the Rust (bin/counted.rs), of which this file is a part: a place by its number, an arm of the sanitiser by
// its number and state. Each token that the sanitiser looks at goes to the driver with its state.
use std::sync::atomic::{AtomicU64, Ordering::Relaxed};
use std::sync::OnceLock;

pub static PLACES: [AtomicU64; 256] = [const { AtomicU64::new(0) }; 256];
pub static ARMS: [[AtomicU64; 11]; 32] = [const { [const { AtomicU64::new(0) }; 11] }; 32];
pub static TOKEN: OnceLock<fn(&crate::Token, usize)> = OnceLock::new();

// One more; there is one thread.
pub fn add(counter: &AtomicU64) {
    counter.store(counter.load(Relaxed) + 1, Relaxed);
}

// Counts a place. Never true: an arm whose guard asks it is not taken.
pub fn here(place: usize) -> bool {
    add(&PLACES[place]);
    false
}

// Counts an arm, from 1 on, in a state. Never true.
pub fn arm(number: usize, state: usize) -> bool {
    add(&ARMS[number - 1][state]);
    false
}

// Hands on a token in a state.
pub fn token(token: &crate::Token, state: usize) {
    TOKEN.get().expect("the driver counts tokens")(token, state);
}
