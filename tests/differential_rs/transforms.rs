// Document 01's transforms, by its equations (n), with every product and sum counted, and every rest looked at, where it is made.
use crate::circle::Circle;

#[derive(Clone, Copy, Default, PartialEq, Debug)]
pub struct Tally {
    pub products: u64,
    pub sums: u64,
}

// What an accepted block gives: the words of each result buffer, the counts and the largest size of a rest.
#[derive(PartialEq, Debug)]
pub struct Outcome {
    pub results: Vec<Vec<i32>>,
    pub tally: Tally,
    pub largest_rest: u64,
}

pub struct Transforms<'a> {
    circle: &'a Circle,
    tally: Tally,
    largest_rest: u64,
}

// ---- the calls on a block

pub fn spectrum(circle: &Circle, x: &[i32]) -> Outcome {
    let mut transforms = Transforms::new(circle);
    let c = transforms.cosine_dft(&widened(x));
    let s = transforms.sine_dft(&widened(x));
    transforms.outcome(&[c, s])
}

pub fn cosine(circle: &Circle, x: &[i32]) -> Outcome {
    let mut transforms = Transforms::new(circle);
    let y = transforms.dct(&widened(x));
    transforms.outcome(&[y])
}

pub fn pair(circle: &Circle, a: &[i32], b: &[i32]) -> Outcome {
    let mut transforms = Transforms::new(circle);
    let (ca, sa) = (transforms.cosine_dft(&widened(a)), transforms.sine_dft(&widened(a)));
    let (cb, sb) = (transforms.cosine_dft(&widened(b)), transforms.sine_dft(&widened(b)));
    let n = a.len();
    let (mut real, mut imaginary) = (Vec::new(), Vec::new());
    for k in 0..n {
        if k == 0 || k == n / 2 {
            // the sine-DFT is zero here for every block
            real.push(cosine_at(&ca, n, k));
            imaginary.push(cosine_at(&cb, n, k));
        } else {
            real.push(transforms.plus(cosine_at(&ca, n, k), sine_at(&sb, n, k)));
            imaginary.push(transforms.minus(cosine_at(&cb, n, k), sine_at(&sa, n, k)));
        }
    }
    transforms.outcome(&[real, imaginary])
}

// ---- the transforms

impl<'a> Transforms<'a> {
    fn new(circle: &'a Circle) -> Transforms<'a> {
        Transforms { circle, tally: Tally::default(), largest_rest: 0 }
    }

    // k = 0 .. N/2
    fn cosine_dft(&mut self, x: &[i64]) -> Vec<i64> {
        let n = x.len();
        match n {
            1 => return vec![x[0]],
            2 => return vec![self.plus(x[0], x[1]), self.minus(x[0], x[1])],
            _ => {}
        }
        let x1 = even_samples(x);
        let x2: Vec<i64> = (0..n / 4).map(|i| self.plus(x[2 * i + 1], x[n - 2 * i - 1])).collect();
        let half = self.cosine_dft(&x1);
        let quarter = self.dct(&x2);
        let term = |k| cosine_at(&half, n / 2, k);
        (0..=n / 2)
            .map(|k| match k {
                // (6): the DCT's term is zero for every block
                _ if k == n / 4 => term(k),
                _ => self.plus(term(k), dct_at(&quarter, k)),
            })
            .collect()
    }

    // k = 0 .. N/2
    fn sine_dft(&mut self, x: &[i64]) -> Vec<i64> {
        let n = x.len();
        match n {
            1 => return vec![0],
            2 => return vec![0, 0],
            _ => {}
        }
        let x1 = even_samples(x);
        let x3: Vec<i64> = (0..n / 4).map(|i| self.minus(x[2 * i + 1], x[n - 2 * i - 1]) * sign(i)).collect();
        let half = self.sine_dft(&x1);
        let quarter = self.dct(&x3);
        (0..=n / 2)
            .map(|k| match k {
                // both terms are zero for every block
                _ if k == 0 || k == n / 2 => 0,
                // the sine's term is zero for every block
                _ if k == n / 4 => quarter[0],
                // (7): DCT(N/4 − k) is DCT(k − N/4)
                _ => self.plus(sine_at(&half, n / 2, k), dct_at(&quarter, (n / 4).abs_diff(k))),
            })
            .collect()
    }

    // k = 0 .. N−1
    fn dct(&mut self, x: &[i64]) -> Vec<i64> {
        let n = x.len();
        if n == 1 {
            return vec![x[0]];
        }
        let x4 = rearranged(x);
        let c = self.cosine_dft(&x4);
        let s = self.sine_dft(&x4);
        let mut y = vec![0; n];
        y[0] = c[0];
        for k in 1..n / 2 {
            (y[k], y[n - k]) = self.rotated(1024 * k / n, c[k], s[k]);
        }
        let middle = self.times(self.circle.t(512), c[n / 2]);
        y[n / 2] = self.rounded(middle);
        y
    }

    // DCT(k) and DCT(N−k) by (20), each rounded once; the numbers before rounding must be those of (19)
    fn rotated(&mut self, place: usize, big_c: i64, big_s: i64) -> (i64, i64) {
        let (c, s) = (self.circle.t(place), self.circle.t(1024 - place));
        let (p1, p2) = (c + s, s - c);
        let s1 = self.plus(big_c, big_s);
        let (m1, m2, m3) = (self.times(s1, c), self.times(big_s, p1), self.times(big_c, p2));
        let (first, second) = (self.minus(m1, m2), self.plus(m1, m3));
        assert_eq!((first, second), (c * big_c - s * big_s, s * big_c + c * big_s));
        (self.rounded(first), self.rounded(second))
    }

    fn rounded(&mut self, v: i64) -> i64 {
        let (y, rest) = round(v);
        self.largest_rest = self.largest_rest.max(rest.unsigned_abs());
        y
    }

    // ---- counted operations

    fn plus(&mut self, a: i64, b: i64) -> i64 {
        self.tally.sums += 1;
        a + b
    }

    fn minus(&mut self, a: i64, b: i64) -> i64 {
        self.tally.sums += 1;
        a - b
    }

    fn times(&mut self, a: i64, b: i64) -> i64 {
        self.tally.products += 1;
        a * b
    }

    fn outcome(&self, coefficients: &[Vec<i64>]) -> Outcome {
        let narrowed = |y: &Vec<i64>| y.iter().map(|&v| i32::try_from(v).expect("a coefficient fits")).collect();
        Outcome { results: coefficients.iter().map(narrowed).collect(), tally: self.tally, largest_rest: self.largest_rest }
    }
}

// ---- free of cost: moves, sign changes and rounding

fn widened(x: &[i32]) -> Vec<i64> {
    x.iter().map(|&v| v as i64).collect()
}

fn even_samples(x: &[i64]) -> Vec<i64> {
    x.iter().step_by(2).copied().collect()
}

// (16)
fn rearranged(x: &[i64]) -> Vec<i64> {
    let n = x.len();
    let mut x4 = vec![0; n];
    for i in 0..n / 2 {
        x4[i] = x[2 * i];
        x4[n - i - 1] = x[2 * i + 1];
    }
    x4
}

fn sign(i: usize) -> i64 {
    if i % 2 == 0 {
        1
    } else {
        -1
    }
}

// (9), for k = 0 .. n
fn cosine_at(c: &[i64], n: usize, k: usize) -> i64 {
    c[k.min(n - k)]
}

// (10), for k = 0 .. n
fn sine_at(s: &[i64], n: usize, k: usize) -> i64 {
    if k <= n / 2 {
        s[k]
    } else {
        -s[n - k]
    }
}

// (6) and (8), for k = 0 .. 2n
fn dct_at(y: &[i64], k: usize) -> i64 {
    let n = y.len();
    match k {
        _ if k == n => 0,
        _ if k < n => y[k],
        _ => -y[2 * n - k],
    }
}

// The nearest multiple of 2^30, a tie going to the larger, over 2^30; and its rest, which is the last 30 binary digits read with a sign.
pub fn round(v: i64) -> (i64, i64) {
    let y = (v + (1 << 29)).div_euclid(1 << 30);
    let rest = v << 34 >> 34;
    assert_eq!(v, y * (1 << 30) + rest);
    (y, rest)
}
