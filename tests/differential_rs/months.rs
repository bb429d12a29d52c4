// Months: document 02's answers to beginning one, adding a block for a party and reading its sums, and calls of every kind.
use crate::blocks::{any_accepted, of_pattern, PATTERNS};
use crate::calls::{Answer, Call, Kind, Rules, LARGEST, LENGTHS};
use crate::hostile::{extreme, extreme_length, flawed};
use crate::known::generous;
use crate::library::Lent;
use crate::random::Random;
use crate::run::Run;

pub const WORDS: usize = 2055;
const ACCOUNT_WORDS: usize = 1027;
pub const FIRST_COSINE: usize = 1; // of an account
pub const FIRST_SINE: usize = 514;
const MOST_BLOCKS: i64 = 50_000; // of a party
const LARGEST_SUM: i64 = 1 << 62;
// the version of the library since which months are so laid out and so made
const EDITION: i64 = 40_000;

pub const PARTIES: [usize; 2] = [1, 2];

// in the order that adding tests, and reading
pub const ORDER: [u32; 8] = [15, 13, 14, 2, 3, 4, 5, 6];
pub const READING_ORDER: [u32; 2] = [15, 16];

// The words of a month: the mark, then the account of each party, its block number and its sums from two places on.
#[derive(Clone)]
pub struct Month {
    pub words: Vec<i64>,
}

// A month as it should be, and the memory lent for its words.
pub struct LentMonth {
    pub month: Month,
    pub lent: Lent<i64>,
}

impl LentMonth {
    pub fn holding(words: Vec<i64>, random: &mut Random) -> LentMonth {
        let lent = Lent::holding("the month", &words, random);
        LentMonth { month: Month { words }, lent }
    }

    // the words of a party's account that stand in the memory now
    pub fn account(&self, party: usize) -> &[i64] {
        let own = account(party).expect("a party");
        &self.lent.words()[own..own + ACCOUNT_WORDS]
    }
}

// the first word of a month that is begun for this length
fn mark(length: usize) -> i64 {
    (EDITION << 16).wrapping_add(length as i64)
}

// the first word of a party's account
pub fn account(party: usize) -> Option<usize> {
    match party {
        1 => Some(1),
        2 => Some(1 + ACCOUNT_WORDS),
        _ => None,
    }
}

// ---- document 02's answer

impl Month {
    // the month after beginning, and the number answered
    pub fn begun(length: usize) -> (Month, u32) {
        let mut words = vec![0; WORDS];
        if LENGTHS.contains(&length) {
            words[0] = mark(length);
            return (Month { words }, 0);
        }
        (Month { words }, 1)
    }

    // 0 where no mark stands there
    pub fn length(&self) -> usize {
        LENGTHS.into_iter().find(|&n| mark(n) == self.words[0]).unwrap_or(0)
    }

    // None where the party has no account
    pub fn blocks(&self, party: usize) -> Option<i64> {
        account(party).map(|own| self.words[own])
    }

    // None where no sums belong to the party and k
    pub fn sums(&self, party: usize, k: usize) -> Option<(i64, i64)> {
        let own = account(party)?;
        self.yields(k).then(|| (self.words[own + FIRST_COSINE + k], self.words[own + FIRST_SINE + k]))
    }

    fn yields(&self, k: usize) -> bool {
        self.length() > 0 && k <= self.length() / 2
    }

    // the refusals of reading sums whose condition holds, whatever the other does, in their order
    pub fn holding_reading(&self, party: usize, k: usize) -> Vec<u32> {
        let holds = |number| if number == 15 { account(party).is_none() } else { !self.yields(k) };
        READING_ORDER.into_iter().filter(|&number| holds(number)).collect()
    }

    // the month after adding stands in its words
    pub fn add(&mut self, party: usize, call: &Call, rules: &Rules) -> Answer {
        let early = ORDER[..3].iter().find(|&&number| self.holds(party, call, number, rules));
        if let Some(&number) = early {
            return Answer { number, place: 0, outcome: None };
        }
        let answer = rules.answer(call);
        if let (Some(outcome), Some(own)) = (&answer.outcome, account(party)) {
            self.words[own] += 1;
            for (first, coefficients) in [FIRST_COSINE, FIRST_SINE].into_iter().zip(&outcome.results) {
                for (word, &coefficient) in self.words[own + first..].iter_mut().zip(coefficients) {
                    *word += if word.unsigned_abs() <= LARGEST_SUM as u64 { coefficient as i64 } else { 0 };
                }
            }
        }
        answer
    }

    // the refusals whose condition holds, whatever the others do, in their order
    pub fn holding(&self, party: usize, call: &Call, rules: &Rules) -> Vec<u32> {
        ORDER.into_iter().filter(|&number| self.holds(party, call, number, rules)).collect()
    }

    // 14 of an unknown party where both parties are full
    fn holds(&self, party: usize, call: &Call, number: u32, rules: &Rules) -> bool {
        let full = |party| self.blocks(party).is_some_and(|blocks| blocks >= MOST_BLOCKS);
        match number {
            15 => account(party).is_none(),
            13 => self.length() == 0 || self.length() != call.length,
            14 => full(party) || account(party).is_none() && PARTIES.into_iter().all(full),
            _ => rules.holds(call, number),
        }
    }
}

// ---- months worked by hand

pub fn self_check(rules: &Rules) {
    let block = |x: &[i32]| generous(Kind::Spectrum, &[x], 0, x.len(), u64::MAX);
    two_parties(rules, &block);
    let (mut refused, number) = Month::begun(3);
    assert_eq!((number, refused.length(), refused.sums(1, 0)), (1, 0, None));
    assert_eq!([0, 1, 3].map(|n| refused.add(1, &block(&vec![0; n]), rules).number), [13, 13, 13]);
    assert_eq!(refused.words, vec![0; WORDS]);

    let ends = [LARGEST_SUM, LARGEST_SUM + 1, -LARGEST_SUM, -LARGEST_SUM - 1];
    let then = ends.map(|end| {
        let mut month = Month { words: [vec![mark(1), -1], vec![end; WORDS - 2]].concat() };
        month.add(1, &block(&[5]), rules);
        (month.blocks(1), month.sums(1, 0).unwrap(), month.sums(2, 0).unwrap())
    });
    assert_eq!(then, [0, 1, 2, 3].map(|i| (Some(0), (ends[i] + if i % 2 == 0 { 5 } else { 0 }, ends[i]), (ends[i], ends[i]))));
}

// At N = 4, C(1) = x0 − x2, C(2) = x0 − x1 + x2 − x3, S(1) = x1 − x3.
fn two_parties(rules: &Rules, block: &impl Fn(&[i32]) -> Call) {
    let (mut month, number) = Month::begun(4);
    assert_eq!((number, month.length(), [0, 1, 2, 3].map(|party| month.blocks(party))), (0, 4, [None, Some(0), Some(0), None]));
    let blocks = [(1, [1, 2, 3, 4]), (2, [6, 0, -5, 0]), (1, [0, -7, 0, 2]), (3, [1, 1, 1, 1])];
    assert_eq!(blocks.map(|(party, x)| month.add(party, &block(&x), rules).number), [0, 0, 0, 15]);
    // of party 1 C 10, −2, −2 and −5, 0, 5; S 0, −2, 0 and 0, −9, 0; of party 2 C 1, 11, 1; S 0, 0, 0
    let sums = |month: &Month, party| (0..4).map(|k| month.sums(party, k)).collect::<Vec<_>>();
    assert_eq!(sums(&month, 1), [Some((5, 0)), Some((-2, -11)), Some((3, 0)), None]);
    assert_eq!(sums(&month, 2), [Some((1, 0)), Some((11, 0)), Some((1, 0)), None]);
    assert_eq!(sums(&month, 3), [None; 4]);
    let not_0: Vec<usize> = (0..WORDS).filter(|&i| month.words[i] != 0).collect();
    assert_eq!(not_0, [0, 1, 2, 3, 4, 516, 1028, 1029, 1030, 1031]);
    assert_eq!([1, 2].map(|party| month.add(party, &block(&[1, 2]), rules).number), [13, 13]);
    let out = month.add(1, &block(&[1, 2, 3, LARGEST + 1]), rules);
    assert_eq!((out.number, out.place, month.words[1], month.words[1028]), (6, 3, 2, 1));
    month.words[1028] = MOST_BLOCKS - 1;
    assert_eq!([4, 4, 2].map(|n| month.add(2, &block(&vec![0; n]), rules).number), [0, 14, 13]);
    assert_eq!([1, 3].map(|party| month.add(party, &block(&[0; 4]), rules).number), [0, 15]);
    for word in [4, mark(0), mark(4) + (1 << 16), mark(4) - (1 << 32)] {
        month.words[0] = word;
        assert_eq!((month.length(), month.add(1, &block(&[0; 4]), rules).number), (0, 13));
    }
}

// ---- histories

// One item: a month of one length, begun in any words; some blocks of any pattern for either party, and refused ones in between; the same
// calls of each party in a month of its own, which leaves it the same account; then the sums are read.
pub fn item(run: &mut Run, index: u64, random: &mut Random) {
    let level = index as usize % 11;
    let n = LENGTHS[level];
    let mut both = begun(run, n, random);
    let mut alone = PARTIES.map(|_| begun(run, n, random));
    let mut histories = PARTIES.map(|_| Vec::new());
    for _ in 0..1 + random.below(6) {
        let pattern = random.below(PATTERNS);
        let call = of_pattern(Kind::Spectrum, (level + 11 * pattern) as u64, &run.rules, random);
        let mut calls = vec![(random.of(&PARTIES), call)];
        calls.extend((0..random.below(3)).map(|_| spoilt(n, any_flaws(random), &run.rules, random)));
        for (party, call) in calls {
            let number = run.add(&mut both, party, &call, random);
            if account(party).is_some() {
                run.add(&mut alone[party - 1], party, &call, random);
            }
            if number == 0 {
                histories[party - 1].push(call);
            }
        }
    }
    for party in PARTIES {
        let same = both.account(party) == alone[party - 1].account(party);
        run.require(same, "its account is another than that of its calls alone", || format!("party {party} of a month of {n}"));
        run.month_distances(&both, party, &histories[party - 1], random);
        for k in [0, n / 2, n / 2 + 1, random.below(n / 2 + 1), awkward_k(random)] {
            run.sums(&mut both, party, k, random);
        }
    }
}

fn begun(run: &mut Run, n: usize, random: &mut Random) -> LentMonth {
    let mut month = LentMonth::holding(any_words(random), random);
    run.begin(&mut month, n);
    month
}

// one refusal or two, by their places in ORDER
fn any_flaws(random: &mut Random) -> u64 {
    1 << random.below(8) | 1 << random.below(8)
}

// A party and an accepted call on a block of n, spoilt in each way of a set of the refusals, by their places in ORDER; 14 is the month's.
// With 15 the party is unknown, with 13 the block has another length, good or bad.
fn spoilt(n: usize, set: u64, rules: &Rules, random: &mut Random) -> (usize, Call) {
    let party = if set & 1 == 1 { unknown(random) } else { random.of(&PARTIES) };
    let mut length = n;
    let mut ways = set >> 3 << 1; // 2 to 6, as hostile::flawed takes them
    while set & 2 == 2 && length == n {
        length = random.of(&LENGTHS);
        ways |= random.below(2) as u64;
    }
    (party, flawed(Kind::Spectrum, length, ways, rules, random))
}

// a party that is neither 1 nor 2
fn unknown(random: &mut Random) -> usize {
    let own = random.of(&PARTIES);
    let wide = random.of(&[own + (1 << 8), own + (1 << 16), own + (1 << 31), own + (1 << 32), own + (1 << 63), own << 32]);
    random.of(&[0, 0, 3, 3, 4, wide, wide, wide, 1 << 63, usize::MAX - 1, usize::MAX])
}

fn any_words(random: &mut Random) -> Vec<i64> {
    (0..WORDS).map(|_| random.next() as i64).collect()
}

fn awkward_k(random: &mut Random) -> usize {
    random.of(&[1, 2, 511, 512, 513, 514, 1026, 1027, 1028, 1 << 32, (1 << 32) + 1, 1 << 61, 1 << 63, usize::MAX - 513, usize::MAX])
}

// ---- calls that are turned down

pub const SETS: u64 = 256 * 11;

// One item: a call spoilt in each way of a set of the eight refusals, by their places in ORDER; after all sets, in one way or two. With 14 the
// party is full, or both where it is unknown; else it is not, whatever the other has.
pub fn flawed_item(run: &mut Run, index: u64, random: &mut Random) {
    let set = if index < SETS { index % 256 } else { any_flaws(random) };
    let n = LENGTHS[(index / 256) as usize % 11];
    let (party, call) = spoilt(n, set, &run.rules, random);
    let mut words = any_words(random);
    words[0] = mark(n);
    for own in PARTIES {
        let (full, room) = (random.of(&[50_000, 50_001, i64::MAX]), random.of(&[0, 1, 49_998, 49_999]));
        let asked = if set & 4 == 4 { full } else { room };
        let other = PARTIES.contains(&party) && own != party;
        words[account(own).unwrap()] = if other { random.of(&[full, room]) } else { asked };
    }
    let mut month = LentMonth::holding(words, random);
    run.add(&mut month, party, &call, random);
}

// ---- words that no month left there

// One item: lengths, starts, sizes and allowances from lists of awkward ones, or an accepted block, and a month of awkward words; then it is
// read and begun again.
pub fn extreme_item(run: &mut Run, index: u64, random: &mut Random) {
    let n = random.of(&LENGTHS);
    let call = if index % 2 == 0 { extreme(Kind::Spectrum, random) } else { any_accepted(Kind::Spectrum, n, &run.rules, random) };
    let mut month = LentMonth::holding(extreme_words(call.length, random), random);
    let party = any_party(random);
    run.add(&mut month, party, &call, random);
    let own = month.month.length() / 2;
    for k in [own, own + 1, awkward_k(random)] {
        run.sums(&mut month, any_party(random), k, random);
    }
    let any = extreme_length(random);
    let again = random.of(&[call.length, month.month.length(), any]);
    run.begin(&mut month, again);
    run.add(&mut month, party, &call, random);
}

fn any_party(random: &mut Random) -> usize {
    let neither = unknown(random);
    random.of(&[1, 1, 2, 2, neither])
}

fn extreme_words(length: usize, random: &mut Random) -> Vec<i64> {
    let ends = [LARGEST_SUM, LARGEST_SUM + 1, -LARGEST_SUM, -LARGEST_SUM - 1, LARGEST_SUM - 1, i64::MAX, i64::MIN, 0, 7, -7];
    let mut words: Vec<i64> = (0..WORDS).map(|_| random.of(&ends)).collect();
    let (usual, no_mark) = (random.of(&LENGTHS), no_mark(length, random));
    words[0] = random.of(&[mark(length), mark(length), mark(usual), no_mark]);
    for party in PARTIES {
        words[account(party).unwrap()] = random.of(&[0, 0, 1, 49_999, 49_999, 50_000, 50_001, 1 << 31, (1 << 32) + 5, -1, i64::MIN, i64::MAX]);
    }
    words
}

// A first word near to the mark of this length, as of another edition or of the version before, which had the length alone; or far from all.
fn no_mark(length: usize, random: &mut Random) -> i64 {
    let edition = random.of(&[0, 0, 1, EDITION - 10_000, EDITION - 1, EDITION + 1, 2 * EDITION, -EDITION]);
    let other_edition = (edition << 16).wrapping_add(length as i64);
    let moved = mark(length).wrapping_add(random.of(&[-1, 3, 1 << 32, -1 << 32, i64::MIN]));
    let of_none = random.of(&[mark(0), mark(3), mark(2048), mark(65_536), mark(length).wrapping_neg()]);
    let far = random.of(&[0, -1, 3, 2048, i64::MAX, i64::MIN]);
    random.of(&[other_edition, other_edition, moved, of_none, far])
}
