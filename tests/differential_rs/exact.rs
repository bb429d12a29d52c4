// The exact sums of document 01, term by term, and the distance of a result from its exact sum.
use crate::circle::{Circle, PLACES, QUARTER};

pub const ONE: i128 = 1 << 80;

// A kind of coefficient that has an exact sum and a limit of its own.
#[derive(Clone, Copy)]
pub enum Part {
    CosineDft,
    SineDft,
    Dct,
    Real,
    Imaginary,
}

pub const PARTS: [Part; 5] = [Part::CosineDft, Part::SineDft, Part::Dct, Part::Real, Part::Imaginary];

impl Part {
    // The limit is over / under, without its division.
    pub fn limit(self, n: usize) -> (usize, usize) {
        match self {
            Part::CosineDft | Part::SineDft => (n, 8),
            Part::Dct => (n + 1, 4),
            Part::Real | Part::Imaginary => (n, 4),
        }
    }

    // blocks has a alone, or a and b
    pub fn exact(self, circle: &Circle, blocks: &[&[i32]], k: usize) -> i128 {
        let a = blocks[0];
        match self {
            Part::CosineDft => exact_cosine(circle, a, k),
            Part::SineDft => exact_sine(circle, a, k),
            Part::Dct => exact_dct(circle, a, k),
            Part::Real => exact_cosine(circle, a, k) + exact_sine(circle, blocks[1], k),
            Part::Imaginary => exact_cosine(circle, blocks[1], k) - exact_sine(circle, a, k),
        }
    }
}

// All sums are before the division by 2^80; a sum is below 2^112, since a sample is below 2^21, N at most 2^10 and K at most 2^80.
fn exact_cosine(circle: &Circle, x: &[i32], k: usize) -> i128 {
    let step = k * (PLACES / x.len());
    (0..x.len()).map(|n| x[n] as i128 * circle.k(n * step)).sum()
}

// the place nk·4096/N − 1024, a whole turn later
fn exact_sine(circle: &Circle, x: &[i32], k: usize) -> i128 {
    let step = k * (PLACES / x.len());
    (0..x.len()).map(|n| x[n] as i128 * circle.k(n * step + PLACES - QUARTER)).sum()
}

fn exact_dct(circle: &Circle, x: &[i32], k: usize) -> i128 {
    let step = k * (QUARTER / x.len());
    (0..x.len()).map(|n| x[n] as i128 * circle.k((2 * n + 1) * step)).sum()
}

pub fn distance(y: impl Into<i128>, exact: i128) -> u128 {
    (y.into() * ONE - exact).unsigned_abs()
}

// within over / under
pub fn within(distance: u128, (over, under): (usize, usize)) -> bool {
    distance * under as u128 <= over as u128 * ONE as u128
}
