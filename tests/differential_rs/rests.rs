// Blocks whose rests are all on one side, the cosine-DFT or the sine-DFT, a or b: a call that leaves out that side gives 0.
use crate::blocks::{accepted_on, sample};
use crate::calls::{Kind, LENGTHS};
use crate::circle::Circle;
use crate::random::Random;
use crate::run::Run;
use crate::ties;
use crate::transforms;

pub const ITEMS: u64 = 4 * 11 * 4;

// One item: such a block, random or with a tie; by Spectrum, and by Pair as a and as b with a block that leaves no rest.
pub fn item(run: &mut Run, index: u64, random: &mut Random) {
    let n = LENGTHS[index as usize % 11];
    let (of_sine, tied) = (index / 11 % 2 == 1, index / 22 % 2 == 1);
    let tie = if tied { ties::one_sided(n, of_sine, &run.rules.circle, random) } else { None };
    let x = tie.unwrap_or_else(|| one_sided(n, of_sine, random));
    let quiet = vec![sample(random); n];
    for (kind, blocks) in [(Kind::Spectrum, &[&x[..]][..]), (Kind::Pair, &[&x, &quiet]), (Kind::Pair, &[&quiet, &x])] {
        let call = accepted_on(kind, blocks, &run.rules, random);
        run.call(&call, 0, random);
    }
}

// x(N − i) is x(i), or its opposite: the sine-DFT, or the cosine-DFT, is made of zeros alone
fn one_sided(n: usize, of_sine: bool, random: &mut Random) -> Vec<i32> {
    let mut x: Vec<i32> = (0..n).map(|_| sample(random)).collect();
    for i in 0..=n / 2 {
        let mirror = (n - i) % n;
        x[mirror] = match of_sine {
            true if mirror == i => 0,
            true => -x[i],
            false => x[i],
        };
    }
    x
}

pub fn self_check(circle: &Circle) {
    let mut random = Random::of_item(5, 0, 0);
    for (n, of_sine) in LENGTHS.into_iter().flat_map(|n| [(n, false), (n, true)]) {
        check_side(&one_sided(n, of_sine, &mut random), of_sine, circle, |rest| (rest > 0) == (n >= 8));
        if let Some(x) = ties::one_sided(n, of_sine, circle, &mut random) {
            check_side(&x, of_sine, circle, |rest| rest == 1 << 29);
        }
        let quiet = transforms::cosine(circle, &vec![sample(&mut random); n]);
        assert_eq!(quiet.largest_rest, 0);
    }
    // the rest of DCT(N/2) alone, which is a tie at N = 1,024
    assert_eq!(transforms::cosine(circle, &ties::middle(1024, &mut random)).largest_rest, 1 << 29);
    assert_eq!(transforms::cosine(circle, &ties::middle(512, &mut random)).largest_rest, 1 << 28);
}

fn check_side(x: &[i32], of_sine: bool, circle: &Circle, expected: impl Fn(u64) -> bool) {
    let outcome = transforms::spectrum(circle, x);
    assert!(outcome.results[!of_sine as usize].iter().all(|&c| c == 0));
    assert!(expected(outcome.largest_rest), "{} in blocks of {}", outcome.largest_rest, x.len());
}
