// A call of Spectrum with a mark, document 02's answer to it, and calls of every kind.
use crate::blocks;
use crate::calls::{Answer, Call, Kind, Rules, LARGEST, LENGTHS};
use crate::hostile::{extreme, flawed};
use crate::known::generous;
use crate::random::Random;
use crate::run::Run;

pub struct Marking {
    // of Spectrum
    pub call: Call,
    pub flat_limit: i32,
    pub clip_level: i32,
}

// in the order that the call tests
pub const ORDER: [u32; 7] = [1, 2, 3, 4, 5, 6, 12];

const NO_MARK: u64 = 0;
const FLAT: u64 = 1;
const CLIPPED: u64 = 2;
const PLAIN: u64 = 3;

// the rules in the order in which they are looked at
const LOOKED_AT: [u64; 2] = [FLAT, CLIPPED];

// ---- document 02's answer

impl Marking {
    // Spectrum's answer, or refusal 12; and the mark
    pub fn answer(&self, rules: &Rules) -> (Answer, u64) {
        let answer = rules.answer(&self.call);
        let Some(outcome) = &answer.outcome else {
            return (answer, NO_MARK);
        };
        if self.bad_figures() {
            return (Answer { number: 12, place: 0, outcome: None }, NO_MARK);
        }
        let mark = self.mark(&outcome.results);
        (answer, mark)
    }

    // the refusals whose condition holds, whatever the others do, in their order
    pub fn holding(&self, rules: &Rules) -> Vec<u32> {
        let holds = |number| if number == 12 { self.bad_figures() } else { rules.holds(&self.call, number) };
        ORDER.into_iter().filter(|&number| holds(number)).collect()
    }

    // the rules that the block with these coefficients meets: 1 for flat, 2 for clipped, their sum for both
    pub fn rules_met(&self, results: &[Vec<i32>]) -> usize {
        self.is_flat(results) as usize + 2 * self.is_clipped() as usize
    }

    fn mark(&self, results: &[Vec<i32>]) -> u64 {
        let meets = |rule| if rule == FLAT { self.is_flat(results) } else { self.is_clipped() };
        LOOKED_AT.into_iter().find(|&rule| meets(rule)).unwrap_or(PLAIN)
    }

    fn bad_figures(&self) -> bool {
        self.flat_limit < 0 || !(1..=1_000_000).contains(&self.clip_level)
    }

    fn is_flat(&self, results: &[Vec<i32>]) -> bool {
        largest(results) <= self.flat_limit as i64
    }

    fn is_clipped(&self) -> bool {
        self.call.blocks()[0].iter().any(|&x| x >= self.clip_level || x <= -self.clip_level)
    }
}

// the largest size of a coefficient from k = 1 on
fn largest(results: &[Vec<i32>]) -> i64 {
    results.iter().flat_map(|words| &words[1..]).map(|&c| (c as i64).abs()).max().unwrap_or(0)
}

// Blocks worked by hand. At N = 4, C(1) = x0 − x2, C(2) = x0 − x1 + x2 − x3, S(1) = x1 − x3.
pub fn self_check(rules: &Rules) {
    let marked = |x: &[i32], flat_limit, clip_level| {
        let (answer, mark) = marking(x, flat_limit, clip_level).answer(rules);
        (answer.number, mark)
    };
    // C 10, −2, −2 and S 0, −2, 0
    let four = [1, 2, 3, 4];
    assert_eq!([(2, 5), (1, 4), (1, 5)].map(|(flat, clip)| marked(&four, flat, clip)), [(0, FLAT), (0, CLIPPED), (0, PLAIN)]);
    // C −5, 0, 5 and S 0, −9, 0
    let sine = [0, -7, 0, 2];
    assert_eq!([(9, 8), (8, 7), (8, 8)].map(|(flat, clip)| marked(&sine, flat, clip)), [(0, FLAT), (0, CLIPPED), (0, PLAIN)]);
    assert_eq!(marked(&[LARGEST], 0, LARGEST), (0, LOOKED_AT[0]));
    assert_eq!(marked(&[LARGEST; 8], 0, LARGEST), (0, LOOKED_AT[0]));
    assert_eq!([(-1, 1), (0, 0), (0, LARGEST + 1)].map(|(flat, clip)| marked(&four, flat, clip)), [(12, NO_MARK); 3]);
    assert_eq!(marked(&[LARGEST + 1], -1, 0), (6, NO_MARK));
}

fn marking(x: &[i32], flat_limit: i32, clip_level: i32) -> Marking {
    Marking { call: generous(Kind::Spectrum, &[x], 0, x.len(), u64::MAX), flat_limit, clip_level }
}

// ---- blocks with figures of every kind

// One item: a block of a length and a pattern, with figures at its largest coefficient and its largest sample, around them and anywhere; then bad ones.
pub fn item(run: &mut Run, index: u64, random: &mut Random) {
    let call = blocks::of_pattern(Kind::Spectrum, index, &run.rules, random);
    let coefficient = largest(&run.rules.answer(&call).outcome.expect("an accepted block").results) as i32;
    let sample = call.blocks()[0].iter().map(|x| x.abs()).max().unwrap();
    let any = (random.between(0, 2 * coefficient as i64) as i32, random.between(1, LARGEST as i64) as i32);
    let around = [(coefficient, sample), (coefficient, sample + 1), (coefficient - 1, sample), (coefficient - 1, sample + 1), any];
    let good = around.map(|(flat_limit, clip_level)| (flat_limit.max(0), clip_level.clamp(1, LARGEST)));
    for (flat_limit, clip_level) in good.into_iter().chain([bad_figures(random)]) {
        run.mark(&Marking { call: call.clone(), flat_limit, clip_level }, random);
    }
}

// ---- calls that are turned down

pub const SETS: u64 = 128 * 11;

// One item: an accepted call, spoilt in each way of a set of the seven refusals, by their places in ORDER; after all sets, in one way or two.
pub fn flawed_item(run: &mut Run, index: u64, random: &mut Random) {
    let set = if index < SETS { index % 128 } else { 1 << random.below(7) | 1 << random.below(7) };
    let n = LENGTHS[(index / 128) as usize % 11];
    let call = flawed(Kind::Spectrum, n, set % 64, &run.rules, random);
    let (flat_limit, clip_level) = if set >= 64 { bad_figures(random) } else { (random.of(&[0, 1, 1000, i32::MAX]), random.of(&[1, 2, 999_999, LARGEST])) };
    run.mark(&Marking { call, flat_limit, clip_level }, random);
}

// one figure or both out of their range
fn bad_figures(random: &mut Random) -> (i32, i32) {
    let low = random.of(&[-1, -2, -LARGEST, i32::MIN]);
    let outside = random.of(&[0, -1, LARGEST + 1, i32::MAX, i32::MIN]);
    random.of(&[(low, 1), (low, LARGEST), (0, outside), (i32::MAX, outside), (low, outside)])
}

// One item: lengths, starts, sizes and allowances from lists of awkward ones, in any mix, and figures of every kind.
pub fn extreme_item(run: &mut Run, _index: u64, random: &mut Random) {
    let call = extreme(Kind::Spectrum, random);
    let flat_limit = random.of(&[0, 0, 1, 2, LARGEST, 1 << 30, i32::MAX, i32::MAX, -1, i32::MIN]);
    let clip_level = random.of(&[1, 1, 2, 3, 500_000, 999_999, LARGEST, LARGEST, 0, LARGEST + 1, -1, i32::MIN, i32::MAX]);
    run.mark(&Marking { call, flat_limit, clip_level }, random);
}
