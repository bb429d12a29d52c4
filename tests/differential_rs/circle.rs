// The cosine circle K and the stored quarter wave T, by document 01's rules.
use std::ops::Neg;

pub const PLACES: usize = 4096;
pub const QUARTER: usize = 1024;
const B: u128 = 1 << 80;

pub struct Circle {
    k: Vec<i128>,
    t: Vec<i64>,
}

impl Circle {
    pub fn new() -> Circle {
        let quarter = quarter_of_k();
        let stored: Vec<i64> = quarter.iter().map(|&c| ((c + (1 << 49)) >> 50) as i64).collect();
        Circle { k: whole(&quarter), t: whole(&stored) }
    }

    // Places are taken modulo 4,096.
    pub fn k(&self, place: usize) -> i128 {
        self.k[place % PLACES]
    }

    // The stored quarter wave, places 0 .. 1,024; beyond them round the circle as K.
    pub fn t(&self, place: usize) -> i64 {
        self.t[place % PLACES]
    }
}

fn whole<W: Copy + Neg<Output = W>>(quarter: &[W]) -> Vec<W> {
    (0..PLACES).map(|j| around(quarter, j)).collect()
}

// K(2048 − j) = −K(j) and K(4096 − j) = K(j).
fn around<W: Copy + Neg<Output = W>>(quarter: &[W], j: usize) -> W {
    match j {
        0..=1024 => quarter[j],
        1025..=2048 => -quarter[2048 - j],
        _ => around(quarter, PLACES - j),
    }
}

// K(0) .. K(1024); both numbers of a pair stay above 0 up to place 1,023
fn quarter_of_k() -> Vec<i128> {
    let (c1, s1) = unit_step();
    let (mut c, mut s) = (B, 0);
    let mut quarter = vec![c as i128];
    for _ in 1..QUARTER {
        let new_c = product(c, c1).minus(product(s, s1)).over_b();
        s = product(s, c1).plus(product(c, s1)).over_b();
        c = new_c;
        quarter.push(c as i128);
    }
    quarter.push(0);
    quarter
}

// (0, B), halved ten times
fn unit_step() -> (u128, u128) {
    let (mut c, mut s) = (0, B);
    for _ in 0..10 {
        // B is even, so B(B ± c)/2 is (B/2)(B ± c)
        let new_s = root(product(B / 2, B - c));
        c = root(product(B / 2, B + c));
        s = new_s;
    }
    (c, s)
}

// ---- numbers of 256 bits

// high · 2^128 + low; the order of the fields makes the derived order that of the numbers.
#[derive(Clone, Copy, PartialEq, Eq, PartialOrd, Ord)]
struct Wide {
    high: u128,
    low: u128,
}

impl Wide {
    fn plus(self, other: Wide) -> Wide {
        let (low, carry) = self.low.overflowing_add(other.low);
        Wide { high: self.high + other.high + carry as u128, low }
    }

    fn minus(self, other: Wide) -> Wide {
        assert!(other <= self);
        let (low, borrow) = self.low.overflowing_sub(other.low);
        Wide { high: self.high - other.high - borrow as u128, low }
    }

    // the quotient by B = 2^80, rounded down
    fn over_b(self) -> u128 {
        assert!(self.high < B);
        self.high << 48 | self.low >> 80
    }
}

// by halves of 64 bits; a and b are below 2^127
fn product(a: u128, b: u128) -> Wide {
    let half = |v: u128| (v >> 64, v & u64::MAX as u128);
    let ((a1, a0), (b1, b0)) = (half(a), half(b));
    let (middle1, middle0) = half(a1 * b0 + a0 * b1);
    Wide { high: a1 * b1 + middle1, low: 0 }.plus(Wide { high: 0, low: a0 * b0 }).plus(Wide { high: 0, low: middle0 << 64 })
}

// the largest r with r² ≤ v, a binary digit at a time; v is below 2^162
fn root(v: Wide) -> u128 {
    let mut r = 0;
    for digit in (0..=80).rev() {
        let larger = r | 1 << digit;
        if product(larger, larger) <= v {
            r = larger;
        }
    }
    r
}
