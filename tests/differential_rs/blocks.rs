// Accepted blocks: patterns that stress the transforms, put anywhere into a longer recording.
use crate::calls::{Call, Kind, Rules, KINDS, LARGEST, LENGTHS};
use crate::circle::{Circle, PLACES};
use crate::mealbis::scratch_words;
use crate::random::Random;
use crate::run::Run;
use crate::ties;

pub const PATTERNS: usize = 23;

// One item: a block of a length and a pattern, by all three calls. Pair takes it with another block, or with itself.
pub fn item(run: &mut Run, index: u64, random: &mut Random) {
    let (x, k) = of_index(index, &run.rules.circle, random);
    for kind in KINDS {
        let call = accepted(kind, &x, &run.rules, random);
        run.call(&call, k, random);
    }
}

// An accepted call on such a block.
pub fn of_pattern(kind: Kind, index: u64, rules: &Rules, random: &mut Random) -> Call {
    let (x, _) = of_index(index, &rules.circle, random);
    accepted(kind, &x, rules, random)
}

// The block of an item, and the k that it excites where its pattern is a wave.
fn of_index(index: u64, circle: &Circle, random: &mut Random) -> (Vec<i32>, usize) {
    let n = LENGTHS[index as usize % LENGTHS.len()];
    let pattern = index as usize / LENGTHS.len() % PATTERNS;
    let k = random.below(n);
    (block(pattern, n, k, circle, random), k)
}

// One item: a block changed sample by sample; a change that takes coefficient k further from its exact sum is kept.
pub fn climb_item(run: &mut Run, index: u64, random: &mut Random) {
    let n = LENGTHS[index as usize % LENGTHS.len()];
    let kind = KINDS[index as usize / LENGTHS.len() % KINDS.len()];
    let k = random.below(kind.listed(n));
    let call = any_accepted(kind, n, &run.rules, random);
    climb(call, random, |call, random| run.call(call, k, random));
}

// 30 changes, of which those are kept that take a call further.
pub fn climb(mut call: Call, random: &mut Random, mut distance: impl FnMut(&Call, &mut Random) -> u128) {
    let mut furthest = distance(&call, random);
    for _ in 0..30 {
        let changed = with_changes(&call, random);
        let apart = distance(&changed, random);
        if apart > furthest {
            (call, furthest) = (changed, apart);
        }
    }
}

fn with_changes(call: &Call, random: &mut Random) -> Call {
    let mut changed = Call { same_words: false, ..call.clone() };
    for _ in 0..1 + random.below(3) {
        let which = random.below(changed.recordings.len());
        let place = changed.start + random.below(changed.length);
        changed.recordings[which][place] = sample(random);
    }
    changed
}

// ---- patterns

// A block of n samples; where the pattern is a wave, it excites coefficient k. Where no tie is found the samples are random.
fn block(pattern: usize, n: usize, k: usize, circle: &Circle, random: &mut Random) -> Vec<i32> {
    let tie = match pattern {
        20 => ties::dct(n, circle, random),
        21 => ties::dft(n, circle, random),
        22 => Some(ties::middle(n, random)),
        _ => None,
    };
    tie.unwrap_or_else(|| shape(pattern, n, k, circle, random))
}

fn shape(pattern: usize, n: usize, k: usize, circle: &Circle, random: &mut Random) -> Vec<i32> {
    let top = LARGEST;
    let place = random.below(n);
    let phase = random.below(PLACES);
    let size = random.of(&[1, 2, 3, 10, 1000, 30_000]);
    let either = random.of(&[top, -top]);
    let dft = |i: usize| circle.k(i * k * (PLACES / n) + phase);
    let dct = |i: usize| circle.k((2 * i + 1) * k * (PLACES / 4 / n));
    let chirp = |i: usize| circle.k(i * i * (k + 1) * PLACES / (2 * n) + phase);
    let at = |i: usize| match pattern {
        // constant, alternating
        0 => top,
        1 => -top,
        2 => alternating(i, either),
        3 => size,
        // steps
        4 if i < place => either,
        4 => -either,
        5 if i < place => 0,
        5 => either,
        // impulses
        6 if i == place => either,
        6 => 0,
        7 if i == k => either,
        7 if i == place => 1,
        7 => 0,
        // waves, whole or with their signs alone, and a sweep through many k
        8 => scaled(dft(i), top),
        9 => end(dft(i)),
        10 => end(dct(i)),
        11 => scaled(dct(i), size),
        12 => scaled(chirp(i), top),
        // odd samples alone, a ramp
        13 if i % 2 == 1 => alternating(i / 2, either),
        13 => 0,
        14 => (2 * top as i64 * i as i64 / n as i64) as i32 - top,
        // random: the ends, small, sparse, near the ends, the whole range
        15 => random.of(&[top, -top]),
        16 => random.between(-size as i64, size as i64) as i32,
        17 if random.one_in(8) => sample(random),
        17 => 0,
        18 => random.of(&[top, top - 1, 1 - top, -top]),
        _ => sample(random),
    };
    (0..n).map(at).collect()
}

fn alternating(i: usize, size: i32) -> i32 {
    if i % 2 == 0 {
        size
    } else {
        -size
    }
}

// size · c / 2^80, to the nearest
fn scaled(c: i128, size: i32) -> i32 {
    ((size as i128 * c + (1 << 79)) >> 80) as i32
}

// the end of the range that has the sign of c
fn end(c: i128) -> i32 {
    if c < 0 {
        -LARGEST
    } else {
        LARGEST
    }
}

pub fn sample(random: &mut Random) -> i32 {
    random.between(-LARGEST as i64, LARGEST as i64) as i32
}

// ---- calls that are accepted

// A call on the block, for Pair with another one or with itself.
fn accepted(kind: Kind, x: &[i32], rules: &Rules, random: &mut Random) -> Call {
    if kind != Kind::Pair {
        return accepted_on(kind, &[x], rules, random);
    }
    let other = companion(x, &rules.circle, random);
    let mut call = accepted_on(kind, &[x, &other], rules, random);
    if random.one_in(8) {
        call.same_words = true;
        call.recordings[1] = call.recordings[0].clone();
    }
    call
}

// Each block stands somewhere in a recording whose other samples are mostly out of range: a call does not examine them.
pub fn accepted_on(kind: Kind, blocks: &[&[i32]], rules: &Rules, random: &mut Random) -> Call {
    let n = blocks[0].len();
    let start = starts(random);
    let recordings = blocks.iter().map(|x| around(start, x, random)).collect();
    let products = rules.counts(n).unwrap().of_kind(kind).products;
    let more = products + random.below(1000) as u64;
    Call {
        kind,
        recordings,
        same_words: false,
        start,
        length: n,
        allowance: random.of(&[products, products, products + 1, more, u64::MAX]),
        results: (0..kind.results()).map(|_| kind.listed(n) + spare(random)).collect(),
        scratch: scratch_words(n) + spare(random),
    }
}

// an accepted call on a random block
pub fn any_accepted(kind: Kind, n: usize, rules: &Rules, random: &mut Random) -> Call {
    let x: Vec<i32> = (0..n).map(|_| sample(random)).collect();
    accepted(kind, &x, rules, random)
}

// the other block of a Pair: the same with its sign changed, turned round, or one of any pattern
fn companion(x: &[i32], circle: &Circle, random: &mut Random) -> Vec<i32> {
    match random.below(8) {
        0 => x.iter().map(|v| -v).collect(),
        1 => x.iter().rev().copied().collect(),
        _ => {
            let (pattern, k) = (random.below(PATTERNS), random.below(x.len()));
            block(pattern, x.len(), k, circle, random)
        }
    }
}

fn starts(random: &mut Random) -> usize {
    match random.below(200) {
        0 => random.below(200_000),
        1..=40 => 0,
        41..=80 => 1 + random.below(3),
        81..=140 => random.below(64),
        _ => random.below(2000),
    }
}

pub fn spare(random: &mut Random) -> usize {
    random.of(&[0, 0, 1, 2, 7, 40])
}

fn around(start: usize, x: &[i32], random: &mut Random) -> Vec<i32> {
    let tail = spare(random);
    let outside = random.of(&[i32::MAX, i32::MIN, LARGEST + 1, -LARGEST - 1, 5]);
    let mut recording = vec![outside; start];
    recording.extend_from_slice(x);
    recording.resize(start + x.len() + tail, outside);
    recording
}
