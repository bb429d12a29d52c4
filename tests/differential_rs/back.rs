// The inverse DCT: blocks sent through Cosine and back, stored coefficients of every kind, and calls that are turned down.
use crate::blocks;
use crate::calls::{Call, Kind, LENGTHS};
use crate::circle::{Circle, QUARTER};
use crate::hostile::{bad_length, extreme_length, shorter};
use crate::known::generous;
use crate::random::Random;
use crate::run::Run;
use crate::stored::{is_tie, largest, sum, worked, Stored};
use crate::ties;

// ---- round trips

// A block of four samples that does not come back as it was: 0 comes back as 1.
const ONE_OFF: [i32; 4] = [94, 92, 72, 0];

// One item: that block, then a block of a length and a pattern, through Cosine and back.
pub fn trip_item(run: &mut Run, index: u64, random: &mut Random) {
    let call = match index {
        0 => generous(Kind::Cosine, &[&ONE_OFF], 0, ONE_OFF.len(), u64::MAX),
        _ => blocks::of_pattern(Kind::Cosine, index, &run.rules, random),
    };
    round_trip(run, &call, random);
}

// One item: a block changed sample by sample, to take a value of its round trip further away.
pub fn trip_climb_item(run: &mut Run, index: u64, random: &mut Random) {
    let call = blocks::any_accepted(Kind::Cosine, LENGTHS[index as usize % LENGTHS.len()], &run.rules, random);
    blocks::climb(call, random, |call, random| round_trip(run, call, random));
}

fn round_trip(run: &mut Run, call: &Call, random: &mut Random) -> u128 {
    let stored = run.coefficients(call, random);
    run.back(&lent(&stored, random), Some(call.blocks()[0]), random)
}

// ---- stored coefficients that are accepted

pub const SHAPES: usize = 12;

// One item: the coefficients worked by hand, then a block of a length and a shape.
pub fn stored_item(run: &mut Run, index: u64, random: &mut Random) {
    let by_hand = worked();
    let stored = match by_hand.get(index as usize) {
        Some((coefficients, _)) => coefficients.clone(),
        None => shaped(index as usize / LENGTHS.len() % SHAPES, LENGTHS[index as usize % LENGTHS.len()], &run.rules.circle, random),
    };
    run.back(&lent(&stored, random), None, random);
}

// A call on these coefficients; those behind them are not examined.
fn lent(stored: &[i32], random: &mut Random) -> Stored {
    let n = stored.len();
    let (more, behind) = (blocks::spare(random), random.of(&[i32::MAX, i32::MIN, largest(n) + 1, 5]));
    let mut coefficients = stored.to_vec();
    coefficients.resize(n + more, behind);
    Stored { coefficients, length: n, values: n + blocks::spare(random) }
}

// Coefficients within the limit; where no tie is found they are random.
fn shaped(shape: usize, n: usize, circle: &Circle, random: &mut Random) -> Vec<i32> {
    if shape == 11 {
        return tie(n, circle, random).unwrap_or_else(|| shaped(6, n, circle, random));
    }
    let most = largest(n);
    let either = random.of(&[most, -most]);
    let place = any_place(n, random);
    let turn = (2 * random.below(n) + 1) * (QUARTER / n);
    let size = random.of(&[1, 2, 1000, 30_000]);
    let at = |k: usize| match shape {
        // the limit with one sign, with every mix of signs, and with the signs that make one value as large as it can be
        0 => most,
        1 => -most,
        2 if k % 2 == 1 => -either,
        2 => either,
        3 => random.of(&[most, -most]),
        4 if k > 0 && circle.t(k * turn) < 0 => -either,
        4 => either,
        // one coefficient
        5 if k == place => either,
        5 => 0,
        // random: the whole range, small, sparse, near the limit; the last ones alone, where a value's terms change sign fastest
        6 => random.between(-most as i64, most as i64) as i32,
        7 => random.between(-size, size) as i32,
        8 if random.one_in(8) => random.between(-most as i64, most as i64) as i32,
        8 => 0,
        9 => random.of(&[most, most - 1, 1 - most, -most]),
        _ if 2 * k >= n => either,
        _ => 0,
    };
    (0..n).map(at).collect()
}

// the first, the last or any
fn any_place(n: usize, random: &mut Random) -> usize {
    let any = random.below(n);
    random.of(&[0, n - 1, any])
}

fn tie(n: usize, circle: &Circle, random: &mut Random) -> Option<Vec<i32>> {
    let value = random.below(n);
    let shape = random.of(&[6, 8]);
    let around = shaped(shape, n, circle, random);
    let c = ties::stored(value, &around, circle, largest(n), random)?;
    assert!(is_tie(sum(circle, &c, value), n));
    Some(c)
}

// ---- calls that are turned down

pub const SETS: u64 = 16 * 11 * 3;

// One item: an accepted call, spoilt in each way of a set of the refusals 1, 2, 3, 10; after all sets, in one way or two.
pub fn flawed_item(run: &mut Run, index: u64, random: &mut Random) {
    let set = if index < SETS { index % 16 } else { 1 << random.below(4) | 1 << random.below(4) };
    let [bad, few, short, beyond] = [0, 1, 2, 3].map(|way| set >> way & 1 == 1);
    let n = LENGTHS[(index / 16) as usize % 11];
    let mut call = lent(&shaped(6, n, &run.rules.circle, random), random);
    let k = any_place(n, random);
    if beyond {
        spoil(&mut call, k, bad, random);
    }
    if few {
        call.coefficients.truncate(if beyond { n - 1 } else { shorter(n, random) });
    }
    if short {
        call.values = shorter(n, random);
    }
    if bad {
        // condition 10 can hold with it where it is small
        call.length = if beyond { 2 * n + 1 } else { bad_length(n, random) };
    }
    run.back(&call, None, random);
}

// a coefficient beyond the limit, and sometimes another behind it; far beyond it where the length is to be changed
fn spoil(call: &mut Stored, k: usize, far: bool, random: &mut Random) {
    let n = call.length;
    let just = largest(n) + 1;
    let beyond = if far { [i32::MAX, i32::MIN, i32::MAX, i32::MIN] } else { [just, -just, i32::MAX, i32::MIN] };
    call.coefficients[k] = random.of(&beyond);
    call.coefficients[k + random.below(n - k)] = random.of(&beyond);
}

// One item: lengths and sizes from lists of awkward ones, in any mix, and coefficients around the limit.
pub fn extreme_item(run: &mut Run, _index: u64, random: &mut Random) {
    let length = extreme_length(random);
    let near = length.min(1025);
    let words = |random: &mut Random| random.of(&[0, 1, near, near, near, near + 1, near.saturating_sub(1), 7, 1024, 1100]);
    let most = largest(near);
    let few = random.one_in(2);
    let one = |random: &mut Random| match few && !random.one_in(near + 1) {
        true => random.of(&[most, -most, 0, 1]),
        false => random.of(&[most, -most, most + 1, -most - 1, i32::MAX, i32::MIN]),
    };
    let coefficients = (0..words(random)).map(|_| one(random)).collect();
    run.back(&Stored { coefficients, length, values: words(random) }, None, random);
}
