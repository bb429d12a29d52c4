// A call of the writer of pair files, document 02's answer to it, and calls of every kind. What is written is read, and what is read is written.
use crate::blocks::spare;
use crate::calls::{in_range, LENGTHS};
use crate::files::{file_of, legal, samples, sizes, File};
use crate::hostile::{bad_length, extreme_length, recording, shorter, OUT};
use crate::random::Random;
use crate::run::Run;
use std::fmt;

pub struct Writing {
    pub a: Vec<i32>,
    pub b: Vec<i32>,
    // b is lent as the very words of a
    pub same_words: bool,
    pub length: usize,
    // the bytes lent for the file
    pub bytes: usize,
}

// in the order that the call tests
pub const ORDER: [u32; 5] = [8, 11, 1, 6, 3];

// 0 and the file, or the number of a refusal.
pub struct WrittenAnswer {
    pub number: u32,
    pub place: usize,
    pub file: Vec<u8>,
}

// ---- document 02's answer

impl Writing {
    pub fn answer(&self) -> WrittenAnswer {
        let number = self.holding().first().copied().unwrap_or(0);
        let place = if number == 6 { self.first_out().unwrap() } else { 0 };
        let file = if number == 0 { file_of(self.a.len() as u32, self.length as u32, &self.a, &self.b) } else { vec![] };
        WrittenAnswer { number, place, file }
    }

    // the refusals whose condition holds, whatever the others do, in their order
    pub fn holding(&self) -> Vec<u32> {
        ORDER.into_iter().filter(|&number| self.holds(number)).collect()
    }

    fn holds(&self, number: u32) -> bool {
        match number {
            8 => self.a.is_empty() || self.a.len() > 4096,
            11 => self.a.len() != self.b.len(),
            1 => !LENGTHS.contains(&self.length),
            6 => self.first_out().is_some(),
            3 => self.bytes < size(self.a.len()),
            _ => false,
        }
    }

    // the place in a, else in b
    fn first_out(&self) -> Option<usize> {
        let out = |recording: &[i32]| recording.iter().position(|&v| !in_range(v));
        out(&self.a).or_else(|| out(&self.b))
    }
}

impl fmt::Display for Writing {
    fn fmt(&self, f: &mut fmt::Formatter) -> fmt::Result {
        let shown = |recording: &[i32]| format!("{:?}", &recording[..recording.len().min(16)]);
        let same = if self.same_words { ", b is lent as the words of a" } else { "" };
        write!(f, "write: recordings of {} and {} samples, length {}, {} bytes for the file{same}", self.a.len(), self.b.len(), self.length, self.bytes)?;
        write!(f, "\n    the recordings begin {} and {}", shown(&self.a), shown(&self.b))
    }
}

// the bytes of a file with m samples of each recording
fn size(m: usize) -> usize {
    8 + 8 * m
}

// The example of document 01, and the ends of the range with a length of two bytes.
pub fn self_check() {
    let writing = |a: &[i32], b: &[i32], length| Writing { a: a.to_vec(), b: b.to_vec(), same_words: false, length, bytes: 100 };
    let example = [2, 0, 0, 0, 2, 0, 0, 0, 3, 0, 0, 0, 1, 0, 0, 0, 0, 0, 0, 0, 2, 0, 0, 0];
    assert_eq!(writing(&[3, 1], &[0, 2], 2).answer().file, example);
    let ends = [1, 0, 0, 0, 0, 4, 0, 0, 0x40, 0x42, 0x0f, 0, 0xc0, 0xbd, 0xf0, 0xff];
    assert_eq!(writing(&[1_000_000], &[-1_000_000], 1024).answer().file, ends);
    let beyond = writing(&[0, 0, 1_000_001], &[-1_000_001, 0, 0], 8).answer();
    assert_eq!((beyond.number, beyond.place), (6, 2));
}

// ---- calls that are accepted

fn accepted(index: u64, random: &mut Random) -> Writing {
    let (m, length) = sizes(index, random);
    let a = samples(m, random);
    let same_words = random.one_in(8);
    let b = if same_words { a.clone() } else { samples(m, random) };
    Writing { a, b, same_words, length, bytes: size(m) + spare(random) }
}

// One item: an accepted input, written and read again.
pub fn trip_item(run: &mut Run, index: u64, random: &mut Random) {
    let call = accepted(index, random);
    let m = call.a.len();
    let bytes = run.write(&call, random)[..size(m)].to_vec();
    let file = File { bytes, a_words: m + spare(random), b_words: m + spare(random) };
    let read = run.read(&file, random);
    let same = file.answer().sizes == (m, call.length) && read[0][..m] == call.a && read[1][..m] == call.b;
    run.require(same, "the reader does not return the input", || call.to_string());
}

// One item: a legal file, read and written again.
pub fn again_item(run: &mut Run, index: u64, random: &mut Random) {
    let file = legal(index, random);
    let (m, length) = file.answer().sizes;
    let read = run.read(&file, random);
    let call = Writing { a: read[0][..m].to_vec(), b: read[1][..m].to_vec(), same_words: false, length, bytes: size(m) };
    let bytes = run.write(&call, random);
    run.require(bytes == file.bytes, "the file read and written again is another", || call.to_string());
}

// ---- calls that are turned down

pub const SETS: u64 = 32 * 11;

// One item: an accepted call, spoilt in each way of a set of the five refusals, by their places in ORDER; after all sets, in one way or two.
pub fn flawed_item(run: &mut Run, index: u64, random: &mut Random) {
    let set = if index < SETS { index % 32 } else { 1 << random.below(5) | 1 << random.below(5) };
    let [count, differ, bad, out, short] = [0, 1, 2, 3, 4].map(|way| set >> way & 1 == 1);
    let mut call = accepted(index / 32, random);
    call.same_words = false;
    if count {
        let m = random.of(&[0, 4097, 5000]);
        (call.a, call.b) = (samples(m, random), samples(m, random));
    }
    let m = call.a.len();
    if differ {
        call.b = samples(other(m, random), random);
    }
    if out {
        spoil(&mut call, random);
    }
    call.bytes = if short { shorter(size(m), random) } else { size(m) + spare(random) };
    if bad {
        call.length = bad_length(call.length, random);
    }
    run.write(&call, random);
}

// another count than m
fn other(m: usize, random: &mut Random) -> usize {
    match random.of(&[m + 1, m.saturating_sub(1), m / 2, 2 * m, 0]) {
        same if same == m => m + 1,
        count => count,
    }
}

// one to three samples out of range, in one recording or in both
fn spoil(call: &mut Writing, random: &mut Random) {
    for _ in 0..1 + random.below(3) {
        let recording = if random.one_in(2) { &mut call.a } else { &mut call.b };
        if !recording.is_empty() {
            let place = random.below(recording.len());
            recording[place] = random.of(&OUT);
        }
    }
}

// One item: sizes and lengths from lists of awkward ones, in any mix, and a sample out of range in some recordings.
pub fn extreme_item(run: &mut Run, _index: u64, random: &mut Random) {
    let any = random.below(4200);
    let m = random.of(&[0, 1, 2, 3, 64, 255, 256, 257, 4095, 4096, 4097, 8192, any]);
    let b = random.of(&[m, m, m, m, m + 1, m.saturating_sub(1), 0, 4096]);
    let file = size(m);
    let bytes = random.of(&[0, 7, 8, 9, file, file, file, file - 1, file + 1, file - 8, file + 8, 8 + 4 * m, 32_776, 40_000]);
    let call = Writing { a: recording(m, random), b: recording(b, random), same_words: false, length: extreme_length(random), bytes };
    run.write(&call, random);
}
