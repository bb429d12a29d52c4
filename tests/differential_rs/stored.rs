// A call of the inverse DCT on stored coefficients, and document 02's answer to it.
use crate::calls::{LARGEST, LENGTHS};
use crate::circle::{Circle, QUARTER};
use std::fmt;

#[derive(Clone)]
pub struct Stored {
    pub coefficients: Vec<i32>,
    pub length: usize,
    // the words lent for the values
    pub values: usize,
}

// in the order that the call tests
pub const ORDER: [u32; 4] = [1, 2, 3, 10];

// 0 and the sums that give the values, or the number of a refusal.
pub struct StoredAnswer {
    pub number: u32,
    pub place: usize,
    // value n times N · 2^30, before it is rounded
    pub sums: Vec<i128>,
}

impl Stored {
    pub fn answer(&self, circle: &Circle) -> StoredAnswer {
        let number = self.holding().first().copied().unwrap_or(0);
        let place = if number == 10 { self.first_beyond().unwrap() } else { 0 };
        let sums = if number == 0 { sums(circle, &self.coefficients[..self.length]) } else { vec![] };
        StoredAnswer { number, place, sums }
    }

    // the refusals whose condition holds, whatever the others do, in their order
    pub fn holding(&self) -> Vec<u32> {
        ORDER.into_iter().filter(|&number| self.holds(number)).collect()
    }

    fn holds(&self, number: u32) -> bool {
        match number {
            1 => !LENGTHS.contains(&self.length),
            2 => self.coefficients.len() < self.length,
            3 => self.values < self.length,
            10 => self.first_beyond().is_some(),
            _ => false,
        }
    }

    // of the first N coefficients, as far as they are stored
    fn first_beyond(&self) -> Option<usize> {
        let most = self.length as u128 * 1_000_000 + self.length as u128;
        self.coefficients.iter().take(self.length).position(|c| c.unsigned_abs() as u128 > most)
    }
}

impl fmt::Display for Stored {
    fn fmt(&self, f: &mut fmt::Formatter) -> fmt::Result {
        let shown = &self.coefficients[..self.coefficients.len().min(16)];
        write!(f, "inverse DCT: {} coefficients, length {}, {} words for the values\n    the coefficients begin {:?}", self.coefficients.len(), self.length, self.values, shown)
    }
}

// the largest coefficient of an accepted block of n
pub fn largest(n: usize) -> i32 {
    n as i32 * LARGEST + n as i32
}

// ---- the values by their definition

fn sums(circle: &Circle, c: &[i32]) -> Vec<i128> {
    (0..c.len()).map(|n| sum(circle, c, n)).collect()
}

// c(0) · 2^30 plus twice the sum of c(k) · T((2n+1)k·1024/N); a product is below 2^61
pub fn sum(circle: &Circle, c: &[i32], n: usize) -> i128 {
    let turn = (2 * n + 1) * (QUARTER / c.len());
    let products = (1..c.len()).map(|k| (c[k] as i64 * circle.t(k * turn)) as i128);
    c[0] as i128 * (1 << 30) + 2 * products.sum::<i128>()
}

// a sum over N · 2^30 to the nearest, a tie going to the larger
pub fn rounded(sum: i128, n: usize) -> i32 {
    let one = (n as i128) << 30;
    i32::try_from((sum + one / 2).div_euclid(one)).expect("a value fits")
}

// half way between two whole numbers
pub fn is_tie(sum: i128, n: usize) -> bool {
    let one = (n as i128) << 30;
    sum.rem_euclid(one) == one / 2
}

// ---- values worked by hand

// Blocks of document 01 sent back, and ties: the coefficients and the values.
pub fn worked() -> Vec<(Vec<i32>, Vec<i32>)> {
    let half = |n: usize, c: i32, value: i32| {
        let mut stored = vec![0; n];
        stored[0] = c;
        (stored, vec![value; n])
    };
    vec![
        (vec![7], vec![7]),
        (vec![-1_000_001], vec![-1_000_001]),
        (vec![10, -3, 0, 0], vec![1, 2, 3, 4]),
        (vec![4, 1], vec![3, 1]),
        (vec![1, -1], vec![0, 1]),
        (vec![0, -1], vec![-1, 1]),
        half(2, 1, 1),
        half(2, -1, 0),
        half(2, -3, -1),
        half(8, 12, 2),
        half(8, -12, -1),
        half(1024, 512, 1),
        half(1024, -512, 0),
    ]
}

pub fn self_check(circle: &Circle) {
    assert_eq!([0, 1536, 2048, 2560, 3584].map(|place| circle.t(place)), [1 << 30, -759_250_125, -1 << 30, -759_250_125, 759_250_125]);
    for (coefficients, values) in worked() {
        let n = values.len();
        let answer = Stored { coefficients, length: n, values: n }.answer(circle);
        assert_eq!(answer.number, 0);
        assert_eq!(answer.sums.iter().map(|&sum| rounded(sum, n)).collect::<Vec<_>>(), values);
    }
    let beyond = Stored { coefficients: vec![0, 2_000_003], length: 2, values: 2 }.answer(circle);
    assert_eq!((beyond.number, beyond.place), (10, 1));
}
