// Document 01's own numbers. This program's transforms are held to them before anything else, and the library by the same calls.
use crate::calls::{Call, Counts, Kind, Rules, LARGEST, LENGTHS};
use crate::mealbis::{self, scratch_words};
use crate::random::Random;
use crate::run::Run;
use crate::transforms::{round, Tally};

// A call that document 01 answers: the number, the place, and the results where it gives them, with the largest rest worked by hand.
struct Known {
    call: Call,
    number: u32,
    place: usize,
    results: Option<(Vec<Vec<i32>>, u64)>,
}

pub fn known_calls() -> usize {
    blocks_to_try().len() + answers_to_try().len()
}

// One item: a call that document 01 answers.
pub fn item(run: &mut Run, index: u64, random: &mut Random) {
    let known = blocks_to_try().into_iter().chain(answers_to_try()).nth(index as usize);
    if let Some(known) = known {
        run.call(&known.call, 0, random);
    }
}

pub fn self_check(rules: &Rules) {
    assert_eq!(mealbis::version(), mealbis::VERSION, "the archive and bindings/rust belong together");
    check_circle(rules);
    check_rounding();
    check_counts(rules);
    for known in blocks_to_try().iter().chain(&answers_to_try()) {
        let answer = rules.answer(&known.call);
        assert_eq!((answer.number, answer.place), (known.number, known.place));
        if let Some(results) = &known.results {
            let outcome = answer.outcome.expect("an accepted block");
            assert_eq!(&(outcome.results, outcome.largest_rest), results);
        }
    }
}

fn check_circle(rules: &Rules) {
    let circle = &rules.circle;
    assert_eq!([0, 512, 1024].map(|j| circle.t(j)), [1_073_741_824, 759_250_125, 0]);
    assert!((0..1024).all(|j| circle.t(j + 1) < circle.t(j)));
    assert_eq!([0, 1024, 2048, 3072, 4096].map(|j| circle.k(j)), [1 << 80, 0, -1 << 80, 0, 1 << 80]);
}

fn check_rounding() {
    let half = 1 << 29;
    assert_eq!([half - 1, half, -half - 1, -half, 3 * half, -3 * half].map(|v| round(v).0), [0, 1, -1, 0, 2, -1]);
    assert_eq!([half - 1, half, -half - 1, -half, 3 * half, -5].map(|v| round(v).1), [half - 1, -half, half - 1, -half, -half, -5]);
}

// the closed forms; Spectrum's and Pair's from N = 2 on
fn check_counts(rules: &Rules) {
    let tally = |products: i64, sums: i64| Tally { products: products as u64, sums: sums as u64 };
    for (level, &length) in LENGTHS.iter().enumerate() {
        let (l, n) = (level as i64, length as i64);
        let mut expected = Counts {
            dct: tally(n * l / 2, n * (3 * l - 2) / 2 + 1),
            spectrum: tally(n * (l - 3) / 2 + 2, n * (3 * l - 5) / 2 + 4),
            pair: tally(n * (l - 3) + 4, 3 * n * (l - 1) + 4),
        };
        if length == 1 {
            (expected.spectrum, expected.pair) = (tally(0, 0), tally(0, 0));
        }
        assert_eq!(rules.counts(length), Some(expected), "counts of {length}");
    }
    assert_eq!(rules.counts(8).unwrap().dct, tally(12, 29));
    assert_eq!(rules.counts(1024).unwrap().spectrum, tally(3586, 12804));
}

// ---- P1 to P8 and the pair of document 01, and ties

fn blocks_to_try() -> Vec<Known> {
    use Kind::*;
    let impulse = |at: usize| (0..8).map(|n| if n == at { LARGEST } else { 0 }).collect::<Vec<i32>>();
    vec![
        block(Spectrum, &[&[7]], &[&[7], &[0]], 0),
        block(Cosine, &[&[7]], &[&[7]], 0),
        block(Spectrum, &[&[1, 2, 3, 4]], &[&[10, -2, -2], &[0, -2, 0]], 0),
        block(Cosine, &[&[1, 2, 3, 4]], &[&[10, -3, 0, 0]], 240_701_527),
        block(Cosine, &[&[3, 1]], &[&[4, 1]], 444_758_426),
        block(Cosine, &[&[0, 1]], &[&[1, -1]], 314_491_699),
        block(Cosine, &[&[-1, 1]], &[&[0, -1]], 444_758_426),
        block(Spectrum, &[&impulse(0)], &[&[LARGEST; 5], &[0; 5]], 0),
        block(Spectrum, &[&impulse(1)], &[&[1000000, 707107, 0, -707107, -1000000], &[0, 707107, 1000000, 707107, 0]], 234_943_168),
        block(Pair, &[&[3, 1], &[0, 2]], &[&[4, 2], &[2, -2]], 0),
        block(Cosine, &[&[13726, 0, 11996, 0]], &[&[25722, 8091, 1223, 16336]], 1 << 29),
        block(Cosine, &[&[11996, 0, -13726, 0]], &[&[-1730, 16336, 18188, -8090]], 1 << 29),
    ]
}

fn block(kind: Kind, recordings: &[&[i32]], results: &[&[i32]], largest_rest: u64) -> Known {
    let call = generous(kind, recordings, 0, recordings[0].len(), u64::MAX);
    Known { call, number: 0, place: 0, results: Some((results.iter().map(|words| words.to_vec()).collect(), largest_rest)) }
}

// a call with result buffers and scratch for every length up to 2,048
pub fn generous(kind: Kind, recordings: &[&[i32]], start: usize, length: usize, allowance: u64) -> Call {
    Call {
        kind,
        recordings: recordings.iter().map(|samples| samples.to_vec()).collect(),
        same_words: false,
        start,
        length,
        allowance,
        results: vec![2048; kind.results()],
        scratch: scratch_words(2048),
    }
}

// ---- allowance, range, lengths and starts to try

fn answers_to_try() -> Vec<Known> {
    let eight = [1, -2, 3, -4, 5, -6, 7, -8];
    let top = [LARGEST; 8];
    let above = [0, 0, 0, 0, 0, LARGEST + 1, 0, 0];
    let cosine = |samples: &[i32], start, length, allowance, number, place| Known {
        call: generous(Kind::Cosine, &[samples], start, length, allowance),
        number,
        place,
        results: None,
    };
    vec![
        cosine(&eight, 0, 8, 12, 0, 0),
        cosine(&eight, 0, 8, 11, 5, 0),
        cosine(&top, 0, 8, 12, 0, 0),
        cosine(&above, 0, 8, 12, 6, 5),
        cosine(&above, 4, 4, 12, 6, 5),
        cosine(&eight, 0, 0, 12, 1, 0),
        cosine(&eight, 0, 3, 12, 1, 0),
        cosine(&[0; 2048], 0, 2048, u64::MAX, 1, 0),
        cosine(&eight, 7, 1, 12, 0, 0),
        cosine(&eight, 7, 2, 12, 2, 0),
    ]
}
