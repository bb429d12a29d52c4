// Calls that are turned down, and calls with numbers at the ends.
use crate::blocks::{any_accepted, sample};
use crate::calls::{Call, Kind, Rules, KINDS, LARGEST, LENGTHS};
use crate::mealbis::scratch_words;
use crate::random::Random;
use crate::run::Run;

pub const OUT: [i32; 4] = [LARGEST + 1, -LARGEST - 1, i32::MAX, i32::MIN];

// ---- every set of refusals together

pub const SETS: u64 = 64 * 11 * 3;

// One item: an accepted call, spoilt in each way of a set of the refusals 1 to 6; after all sets, in one way or two.
pub fn flawed_item(run: &mut Run, index: u64, random: &mut Random) {
    let set = if index < SETS { index % 64 } else { one_or_two(random) };
    let n = LENGTHS[(index / 64) as usize % 11];
    let kind = KINDS[(index / 704) as usize % 3];
    let call = flawed(kind, n, set, &run.rules, random);
    run.call(&call, 0, random);
}

pub fn flawed(kind: Kind, n: usize, set: u64, rules: &Rules, random: &mut Random) -> Call {
    let has = |number: u64| set >> (number - 1) & 1 == 1;
    let mut call = any_accepted(kind, n, rules, random);
    let products = rules.counts(n).unwrap().of_kind(kind).products;
    if has(6) {
        spoil_samples(&mut call, random);
    }
    if has(2) {
        spoil_start(&mut call, has(6), random);
    }
    if has(3) {
        let which = random.below(call.results.len());
        call.results[which] = shorter(kind.listed(n), random);
    }
    if has(4) {
        call.scratch = shorter(scratch_words(n), random);
    }
    if has(5) {
        call.allowance = random.of(&[0, products.saturating_sub(1), products / 2]);
    }
    if has(1) {
        call.length = bad_length(n, random);
    }
    call
}

pub fn one_or_two(random: &mut Random) -> u64 {
    1 << random.below(6) | 1 << random.below(6)
}

// one to three samples out of range, in one recording or in both
fn spoil_samples(call: &mut Call, random: &mut Random) {
    call.same_words = false;
    for _ in 0..1 + random.below(3) {
        let which = random.below(call.recordings.len());
        let place = call.start + random.below(call.length);
        call.recordings[which][place] = random.of(&OUT);
    }
}

// a recording too short by one or more, or a start beyond it, near the largest number too
fn spoil_start(call: &mut Call, keep_samples: bool, random: &mut Random) {
    call.same_words = false;
    let n = call.length;
    let which = random.below(call.recordings.len());
    let len = call.recordings[which].len();
    match random.below(if keep_samples { 2 } else { 4 }) {
        0 | 1 => call.recordings[which].truncate(call.start + n - 1),
        2 => call.recordings[which].truncate(random.below(call.start + n)),
        _ => call.start = random.of(&[len - n + 1, len, len + 1, usize::MAX, usize::MAX - n, usize::MAX - n + 1, usize::MAX - n + 2, 1 << 63, 1 << 32]),
    }
}

pub fn shorter(words: usize, random: &mut Random) -> usize {
    random.of(&[words - 1, words - 1, words / 2, 0])
}

pub fn bad_length(n: usize, random: &mut Random) -> usize {
    let wide = [n + (1 << 32), n << 32, 1 << 61, (1 << 61) - 8, 1 << 63, usize::MAX, usize::MAX - n + 1];
    let near = [0, 3, 3 * n, 2 * n + 1, 1023, 1025, 2048, 4096];
    if random.one_in(2) {
        random.of(&wide)
    } else {
        random.of(&near)
    }
}

// ---- numbers at the ends

// One item: lengths, starts, sizes and allowances from lists of awkward ones, in any mix.
pub fn extreme_item(run: &mut Run, index: u64, random: &mut Random) {
    let call = extreme(KINDS[index as usize % 3], random);
    run.call(&call, 0, random);
}

pub fn extreme(kind: Kind, random: &mut Random) -> Call {
    let length = extreme_length(random);
    let longest = random.of(&[0, 1, 2, 7, 8, 9, 64, 100, 1024, 1100]);
    Call {
        kind,
        recordings: (0..kind.recordings()).map(|_| recording(longest + random.below(2), random)).collect(),
        same_words: false,
        start: extreme_start(longest, length, random),
        length,
        allowance: random.of(&[0, 0, 1, 2, 4, 11, 12, 3586, 7172, 1 << 32, u64::MAX - 1, u64::MAX]),
        results: (0..kind.results()).map(|_| extreme_words(kind, length, random)).collect(),
        scratch: extreme_scratch(length, random),
    }
}

fn extreme_scratch(length: usize, random: &mut Random) -> usize {
    let (none, least, most) = (scratch_words(0), scratch_words(1), scratch_words(1024));
    let (small, own) = ([2, 4, 8].map(scratch_words), scratch_words(length.min(1100)));
    random.of(&[0, none - 1, none, least - 1, least, least + 1, small[0], small[1], small[2], most - 1, most, most + 1, own])
}

pub fn extreme_length(random: &mut Random) -> usize {
    let power = 1 << random.below(64);
    let small = random.below(1100);
    let usual = random.of(&LENGTHS);
    random.of(&[usual, usual, usual, small, 0, power, power - 1, power + 1, usize::MAX, usize::MAX - small, usual + (1 << 32)])
}

fn extreme_start(longest: usize, length: usize, random: &mut Random) -> usize {
    let power = 1 << random.below(64);
    let left = longest.saturating_sub(length);
    let wraps = length.wrapping_neg();
    random.of(&[0, 0, 1, left, left, left + 1, longest, power, usize::MAX, usize::MAX - 1, wraps, wraps.wrapping_add(1), wraps.wrapping_sub(1)])
}

fn extreme_words(kind: Kind, length: usize, random: &mut Random) -> usize {
    let listed = kind.listed(length.min(2048));
    random.of(&[0, 1, listed, listed, listed, listed + 1, listed.saturating_sub(1), 5, 513])
}

pub fn recording(len: usize, random: &mut Random) -> Vec<i32> {
    let mut samples: Vec<i32> = (0..len).map(|_| sample(random)).collect();
    if len > 0 && random.one_in(2) {
        samples[random.below(len)] = random.of(&OUT);
    }
    samples
}

// ---- the count query

pub const COUNT_LENGTHS: u64 = 4200 + 3 * 64;

// One item: the small numbers one by one, the powers of two with their neighbours, then any number.
pub fn counts_item(run: &mut Run, index: u64, random: &mut Random) {
    let length = match index {
        0..=4199 => index,
        4200..=4391 => (1u64 << ((index - 4200) / 3)).wrapping_add((index - 4200) % 3).wrapping_sub(1),
        _ => random.next() >> random.below(64),
    };
    run.counts(length as usize, random);
}
