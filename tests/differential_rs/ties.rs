// Blocks on which a number to be rounded is a tie, half way between two multiples of 2^30. Random blocks do not meet one.
use crate::calls::LARGEST;
use crate::circle::{Circle, QUARTER};
use crate::random::Random;

const TURN: i64 = 1 << 30;
const TRIES: usize = 20_000;

// A block whose DCT has a tie at some k or N − k, from N = 4 on. Its samples rearranged by (16) are x4(0) and x4(N/4) alone, so that for odd k
// C(k) is x4(0) and S(k) is x4(N/4) or its opposite.
pub fn dct(n: usize, circle: &Circle, random: &mut Random) -> Option<Vec<i32>> {
    if n < 4 {
        return None;
    }
    let k = 2 * random.below(n / 4) + 1;
    let (c, s) = (circle.t(1024 * k / n), circle.t(1024 - 1024 * k / n));
    let (big_c, big_s) = if random.one_in(2) { tie(c, -s, random) } else { tie(s, c, random) }?;
    let mut x4 = vec![0; n];
    x4[0] = big_c;
    x4[n / 4] = if k % 4 == 1 { big_s } else { -big_s };
    Some(arranged(&x4))
}

// A block whose cosine-DFT or sine-DFT takes such a DCT of N/4, from N = 16 on: x2 of (12), or x3 of (15), is that DCT's block.
pub fn dft(n: usize, circle: &Circle, random: &mut Random) -> Option<Vec<i32>> {
    let inner = dct(n / 4, circle, random)?;
    let for_sine = random.one_in(2);
    let mut x = vec![0; n];
    for (i, &v) in inner.iter().enumerate() {
        x[2 * i + 1] = if for_sine && i % 2 == 1 { -v } else { v };
    }
    Some(x)
}

// The same with the tie in one of the two alone: half of each inner sample stands at either of the two places that (12) adds and (15) takes
// from each other, with one sign for the cosine-DFT and with two for the sine-DFT.
pub fn one_sided(n: usize, of_sine: bool, circle: &Circle, random: &mut Random) -> Option<Vec<i32>> {
    let even = |x: &Vec<i32>| x.iter().all(|v| v % 2 == 0);
    let inner = (0..10).find_map(|_| dct(n / 4, circle, random).filter(even))?;
    let mut x = vec![0; n];
    for (i, &v) in inner.iter().enumerate() {
        let (early, late) = (2 * i + 1, n - 2 * i - 1);
        x[early] = if of_sine && i % 2 == 1 { -v / 2 } else { v / 2 };
        x[late] = if of_sine { -x[early] } else { x[early] };
    }
    Some(x)
}

// A block whose DCT has C(N/2) = N · 2^19: at N = 1,024 this is 2^29, and T(512), which is odd, makes it a tie at DCT(N/2).
pub fn middle(n: usize, random: &mut Random) -> Vec<i32> {
    let size = random.of(&[1 << 19, -1 << 19]);
    let x4: Vec<i32> = (0..n).map(|i| if i % 2 == 0 { size } else { -size }).collect();
    arranged(&x4)
}

// C and S within the range with p·C + q·S a tie; p must be odd
fn tie(p: i64, q: i64, random: &mut Random) -> Option<(i32, i32)> {
    if p % 2 == 0 {
        return None;
    }
    let largest = LARGEST as i64;
    (0..TRIES).find_map(|_| {
        let big_s = random.between(-largest, largest);
        let big_c = quotient((TURN / 2 - q * big_s) as i128, p as i128, TURN as i128, LARGEST)?;
        Some((big_c, big_s as i32))
    })
}

// The number that p, which is odd, makes v with modulo a power of two, where one is at most the largest in size.
fn quotient(v: i128, p: i128, modulus: i128, largest: i32) -> Option<i32> {
    let quotient = v.rem_euclid(modulus) * inverse(p, modulus) % modulus;
    let nearest = if quotient < modulus / 2 { quotient } else { quotient - modulus };
    (nearest.abs() <= largest as i128).then_some(nearest as i32)
}

// the number that p makes 1 with: each step doubles the binary digits that are right, the first three being so
fn inverse(p: i128, modulus: i128) -> i128 {
    (0..5).fold(p, |v, _| (v * (2 - p * v % modulus)).rem_euclid(modulus))
}

// ---- the way back

// Coefficients of which value i is rounded from a tie, all at most the largest in size: c(0) · 2^29 and the sum of the others times T are
// N · 2^28 modulo N · 2^29. The last coefficient that stands at an odd T is solved for, the others are random or 0; at N = 1 there is none.
pub fn stored(i: usize, c: &[i32], circle: &Circle, largest: i32, random: &mut Random) -> Option<Vec<i32>> {
    let n = c.len();
    let turn = (2 * i + 1) * (QUARTER / n);
    let wave = |k: usize| if k == 0 { 1 << 29 } else { circle.t(k * turn) as i128 };
    let solved = (1..n).rev().find(|&k| wave(k) % 2 != 0)?;
    let mut c = c.to_vec();
    c[solved] = 0;
    (0..TRIES).find_map(|_| {
        let free = random.below(n);
        if free != solved {
            c[free] = random.between(-largest as i64, largest as i64) as i32;
        }
        let others: i128 = (0..n).map(|k| c[k] as i128 * wave(k)).sum();
        let last = quotient(((n as i128) << 28) - others, wave(solved), (n as i128) << 29, largest)?;
        let mut found = c.clone();
        found[solved] = last;
        Some(found)
    })
}

// (16), undone
fn arranged(x4: &[i32]) -> Vec<i32> {
    let n = x4.len();
    (0..n).map(|i| if i % 2 == 0 { x4[i / 2] } else { x4[n - i / 2 - 1] }).collect()
}
