//! The stepped cut, on or off for the present thread.

use std::cell::Cell;

thread_local! {
    static STEPPED: Cell<bool> = const { Cell::new(false) };
}

pub fn set(stepped: bool) {
    STEPPED.with(|cell| cell.set(stepped));
}

/// The largest multiple of 1/1024 that is not above the score, if stepped. Exact in f64.
#[inline]
pub fn cut(score: f32) -> f32 {
    if STEPPED.with(|cell| cell.get()) {
        let steps = (f64::from(score) * 1024.0) as i64;
        (steps as f64 / 1024.0) as f32
    } else {
        score
    }
}
