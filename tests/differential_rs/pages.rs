// A call that prints a page, document 02's answer to it, and calls of every kind.
use crate::blocks::{of_pattern, spare, PATTERNS};
use crate::calls::{Kind, Rules, LENGTHS};
use crate::hostile::{bad_length, extreme_length, shorter};
use crate::random::Random;
use crate::run::Run;
use std::fmt;

#[derive(Clone)]
pub struct Printing {
    pub cosine: Vec<i32>,
    pub sine: Vec<i32>,
    // sine is lent as the very words of cosine
    pub same_words: bool,
    pub length: usize,
    // the bytes lent for the page
    pub bytes: usize,
}

// in the order that the call tests
pub const ORDER: [u32; 3] = [1, 2, 3];

const LINE: usize = 31;
// behind the last byte of each column: k in 4, a space, cosine in 12, a space, sine in 12, a line feed
const ENDS: [usize; 3] = [4, 17, 30];

// ---- document 02's answer

impl Printing {
    // 0 and the page, or the number of a refusal
    pub fn answer(&self) -> (u32, Vec<u8>) {
        match self.holding().first() {
            Some(&number) => (number, vec![]),
            None => (0, page(&self.cosine, &self.sine, self.length)),
        }
    }

    // the refusals whose condition holds, whatever the others do, in their order
    pub fn holding(&self) -> Vec<u32> {
        ORDER.into_iter().filter(|&number| self.holds(number)).collect()
    }

    fn holds(&self, number: u32) -> bool {
        match number {
            1 => !LENGTHS.contains(&self.length),
            2 => self.cosine.len() < yielded(self.length) || self.sine.len() < yielded(self.length),
            3 => (self.bytes as u128) < LINE as u128 * (1 + yielded(self.length) as u128),
            _ => false,
        }
    }
}

impl fmt::Display for Printing {
    fn fmt(&self, f: &mut fmt::Formatter) -> fmt::Result {
        let shown = |words: &[i32]| format!("{:?}", &words[..words.len().min(16)]);
        let same = if self.same_words { ", sine is lent as the words of cosine" } else { "" };
        let (cosine, sine) = (self.cosine.len(), self.sine.len());
        write!(f, "page: {cosine} and {sine} coefficients, length {}, {} bytes for the page{same}", self.length, self.bytes)?;
        write!(f, "\n    the coefficients begin {} and {}", shown(&self.cosine), shown(&self.sine))
    }
}

// how many k Spectrum yields
fn yielded(length: usize) -> usize {
    length / 2 + 1
}

fn size(length: usize) -> usize {
    LINE * (1 + yielded(length))
}

// Lines of spaces, in which the words of the heading and the numbers are put from the right.
fn page(cosine: &[i32], sine: &[i32], length: usize) -> Vec<u8> {
    let mut bytes = vec![b' '; size(length)];
    for (i, line) in bytes.chunks_mut(LINE).enumerate() {
        line[LINE - 1] = b'\n';
        if i == 0 {
            put_words(line);
        } else {
            put_numbers(line, [i as i64 - 1, cosine[i - 1] as i64, sine[i - 1] as i64]);
        }
    }
    bytes
}

fn put_words(line: &mut [u8]) {
    for (end, word) in ENDS.into_iter().zip(["k", "cosine", "sine"]) {
        line[end - word.len()..end].copy_from_slice(word.as_bytes());
    }
}

// digit by digit, the last one first, and a minus before the first
fn put_numbers(line: &mut [u8], numbers: [i64; 3]) {
    for (end, number) in ENDS.into_iter().zip(numbers) {
        let (mut at, mut left) = (end - 1, number.abs());
        line[at] = b'0' + (left % 10) as u8;
        while left >= 10 {
            left /= 10;
            at -= 1;
            line[at] = b'0' + (left % 10) as u8;
        }
        if number < 0 {
            line[at - 1] = b'-';
        }
    }
}

// Pages written by hand.
pub fn self_check() {
    let printing = |cosine: &[i32], sine: &[i32], length, bytes| {
        Printing { cosine: cosine.to_vec(), sine: sine.to_vec(), same_words: false, length, bytes }
    };
    let four = "   k       cosine         sine\n   0  -2147483648   2147483647\n   1            0           -1\n   2           10        -9999\n";
    assert_eq!(printing(&[i32::MIN, 0, 10], &[i32::MAX, -1, -9999], 4, 124).answer(), (0, four.as_bytes().to_vec()));
    assert_eq!(printing(&[7], &[0], 1, 62).answer().1, b"   k       cosine         sine\n   0            7            0\n");
    let (number, long) = printing(&[99; 513], &[-100; 513], 1024, 15934).answer();
    assert_eq!((number, long.len()), (0, 15934));
    for (k, line) in [(9, "   9           99         -100\n"), (10, "  10           99         -100\n"), (512, " 512           99         -100\n")] {
        assert_eq!(&long[LINE * (k + 1)..LINE * (k + 2)], line.as_bytes());
    }
    assert_eq!(printing(&[7], &[0], 1, 61).answer(), (3, vec![]));
    assert_eq!([(0, 5), (5, 0)].map(|(c, s)| printing(&vec![0; c], &vec![0; s], 8, 0).holding()), [[2, 3], [2, 3]]);
    assert_eq!(printing(&[], &[], usize::MAX, usize::MAX).holding(), [1, 2, 3]);
}

// ---- pages that are accepted

pub const SHAPES: usize = 7;

// One item: coefficients of a length and a shape, or those of a block; sometimes sine is lent as cosine.
pub fn item(run: &mut Run, index: u64, random: &mut Random) {
    let call = accepted(LENGTHS[index as usize % 11], index as usize / 11 % SHAPES, &run.rules, random);
    run.page(&call, random);
    if random.one_in(8) {
        run.page(&Printing { sine: call.cosine.clone(), same_words: true, ..call }, random);
    }
}

fn accepted(n: usize, shape: usize, rules: &Rules, random: &mut Random) -> Printing {
    let [cosine, sine] = if shape == 0 { of_block(n, rules, random) } else { [0; 2].map(|_| coefficients(shape, yielded(n), random)) };
    let [cosine, sine] = [cosine, sine].map(|row| [row, coefficients(1, spare(random), random)].concat());
    Printing { cosine, sine, same_words: false, length: n, bytes: size(n) + spare(random) }
}

// the spectrum of a block of any pattern
fn of_block(n: usize, rules: &Rules, random: &mut Random) -> [Vec<i32>; 2] {
    let level = n.trailing_zeros() as usize;
    let call = of_pattern(Kind::Spectrum, (level + 11 * random.below(PATTERNS)) as u64, rules, random);
    let results = rules.answer(&call).outcome.expect("an accepted block").results;
    results.try_into().expect("cosine and sine")
}

fn coefficients(shape: usize, count: usize, random: &mut Random) -> Vec<i32> {
    let either = random.of(&[i32::MAX, i32::MIN, 0, -1]);
    let one = |_| match shape {
        1 => random.next() as i32,
        2 => of_digits(random),
        3 => random.of(&[i32::MAX, i32::MAX - 1, i32::MIN, i32::MIN + 1, 0]),
        4 => random.between(-12, 12) as i32,
        5 => near_a_power(random),
        _ => either,
    };
    (0..count).map(one).collect()
}

// one digit to ten, of either sign
fn of_digits(random: &mut Random) -> i32 {
    let digits = 1 + random.below(10) as u32;
    let most = (10i64.pow(digits) - 1).min(i32::MAX as i64);
    let number = random.between(10i64.pow(digits - 1), most) as i32;
    random.of(&[number, -number])
}

fn near_a_power(random: &mut Random) -> i32 {
    let number = random.between(1, 2) * 10i64.pow(random.below(10) as u32) + random.between(-1, 1);
    random.of(&[number, -number]) as i32
}

// ---- calls that are turned down

pub const SETS: u64 = 8 * 11 * 3;

// One item: an accepted call, spoilt in each way of a set of the refusals 1, 2, 3; after all sets, in one way or two.
pub fn flawed_item(run: &mut Run, index: u64, random: &mut Random) {
    let set = if index < SETS { index % 8 } else { 1 << random.below(3) | 1 << random.below(3) };
    let [bad, few, short] = [0, 1, 2].map(|way| set >> way & 1 == 1);
    let n = LENGTHS[(index / 8) as usize % 11];
    let mut call = accepted(n, 2, &run.rules, random);
    let [few_cosine, few_sine] = if few { random.of(&[[true, false], [false, true], [true, true]]) } else { [false, false] };
    for (row, too_few) in [(&mut call.cosine, few_cosine), (&mut call.sine, few_sine)] {
        if too_few {
            row.truncate(shorter(yielded(n), random));
        }
    }
    if short {
        call.bytes = random.of(&[size(n) - 1, size(n) - LINE, size(n) / 2, LINE, 0]);
    }
    if bad {
        call.length = bad_length(n, random);
    }
    run.page(&call, random);
}

// One item: lengths and sizes from lists of awkward ones, in any mix.
pub fn extreme_item(run: &mut Run, _index: u64, random: &mut Random) {
    let length = extreme_length(random);
    let near = yielded(length.min(2048));
    let words = |random: &mut Random| random.of(&[0, 1, near, near, near, near, near + 1, near - 1, length.min(1100), 513, 600]);
    let shape = 1 + random.below(SHAPES - 1);
    let [cosine, sine] = [0; 2].map(|_| coefficients(shape, words(random), random));
    let page = size(length.min(2048));
    let bytes = random.of(&[0, 1, 30, 31, 61, 62, page, page, page, page, page + 1, page - 1, page - LINE, page - page / LINE, 15933, 15934, 20_000]);
    run.page(&Printing { cosine, sine, same_words: false, length, bytes }, random);
}
