// Pair files: document 01's answer to a file, and files of every kind, whole and damaged.
use crate::blocks::sample;
use crate::calls::{in_range, LARGEST, LENGTHS};
use crate::hostile::one_or_two;
use crate::random::Random;
use crate::run::Run;

// A file and the sizes of the recordings lent to read it.
pub struct File {
    pub bytes: Vec<u8>,
    pub a_words: usize,
    pub b_words: usize,
}

pub struct FileAnswer {
    pub number: u32,
    // m and N
    pub sizes: (usize, usize),
    pub place: usize,
    // a and b, where the file is accepted
    pub samples: Vec<Vec<i32>>,
}

// in the order that a file tests
pub const ORDER: [u32; 6] = [7, 8, 9, 1, 3, 6];
// a file below 8 bytes has no N and no samples
pub const IMPOSSIBLE: [(u32, u32); 2] = [(7, 1), (7, 6)];

// ---- document 01's answer

impl File {
    pub fn answer(&self) -> FileAnswer {
        let refused = |number, place| FileAnswer { number, sizes: (0, 0), place, samples: vec![] };
        match self.holding().first() {
            Some(6) => refused(6, self.first_out().unwrap()),
            Some(&number) => refused(number, 0),
            None => {
                let m = self.m().unwrap() as usize;
                let samples = vec![self.array(8, m), self.array(8 + 4 * m, m)];
                FileAnswer { number: 0, sizes: (m, self.n().unwrap() as usize), place: 0, samples }
            }
        }
    }

    // the refusals whose condition holds, in the order of a file
    pub fn holding(&self) -> Vec<u32> {
        ORDER.into_iter().filter(|&number| self.holds(number)).collect()
    }

    // A condition on a size or a sample can hold only where the file has its bytes.
    fn holds(&self, number: u32) -> bool {
        match number {
            7 => self.bytes.len() < 8,
            8 => self.m().is_some_and(|m| m == 0 || m > 4096),
            9 => self.m().is_some_and(|m| self.bytes.len() as u64 != 8 + 8 * m as u64),
            1 => self.n().is_some_and(|n| !LENGTHS.contains(&(n as usize))),
            3 => self.m().is_some_and(|m| self.a_words < m as usize || self.b_words < m as usize),
            6 => self.first_out().is_some(),
            _ => false,
        }
    }

    fn m(&self) -> Option<u32> {
        self.word(0)
    }

    fn n(&self) -> Option<u32> {
        self.word(4)
    }

    // little-endian
    fn word(&self, at: usize) -> Option<u32> {
        let bytes = self.bytes.get(at..at + 4)?;
        Some(bytes.iter().rev().fold(0, |value, &byte| value << 8 | byte as u32))
    }

    // count samples from a byte on, or those that the file has
    fn array(&self, at: usize, count: usize) -> Vec<i32> {
        (0..count).map_while(|i| self.word(at + 4 * i)).map(|word| word as i32).collect()
    }

    // the place in a, else in b
    fn first_out(&self) -> Option<usize> {
        let m = self.m()? as usize;
        let out = |at: usize| self.array(at, m).iter().position(|&v| !in_range(v));
        out(8).or_else(|| out(8 + 4 * m))
    }

    pub fn described(&self) -> String {
        let header = &self.bytes[..self.bytes.len().min(8)];
        format!("read: {} bytes, beginning {:?}, recordings of {} and {} words", self.bytes.len(), header, self.a_words, self.b_words)
    }
}

// ---- files that are made

pub fn file_of(m: u32, n: u32, a: &[i32], b: &[i32]) -> Vec<u8> {
    let mut bytes = [m.to_le_bytes(), n.to_le_bytes()].concat();
    bytes.extend(a.iter().chain(b).flat_map(|v| v.to_le_bytes()));
    bytes
}

pub fn samples(m: usize, random: &mut Random) -> Vec<i32> {
    match random.below(4) {
        0 => (0..m).map(|_| random.of(&[LARGEST, -LARGEST, 0, 1, -1])).collect(),
        _ => (0..m).map(|_| sample(random)).collect(),
    }
}

pub fn sizes(index: u64, random: &mut Random) -> (usize, usize) {
    let n = LENGTHS[index as usize % 11];
    let any = 1 + random.below(300);
    let m = random.of(&[1, 2, n, n + 1, 2 * n - 1, 3 * n, 4095, 4096, any, any]);
    (m.min(4096), n)
}

// One item: a legal file of every length, into recordings with words to spare or none.
pub fn legal_item(run: &mut Run, index: u64, random: &mut Random) {
    let file = legal(index, random);
    run.read(&file, random);
}

pub fn legal(index: u64, random: &mut Random) -> File {
    let (m, n) = sizes(index, random);
    let bytes = file_of(m as u32, n as u32, &samples(m, random), &samples(m, random));
    let spare = [0, 0, 1, 2, 9, 50];
    File { bytes, a_words: m + random.of(&spare), b_words: m + random.of(&spare) }
}

// One item: a legal file with bytes changed, lost, added or moved anywhere.
pub fn damaged_item(run: &mut Run, index: u64, random: &mut Random) {
    let mut file = legal(index, random);
    for _ in 0..1 + random.below(2) {
        let len = file.bytes.len();
        let near = if random.one_in(2) { len.min(12) } else { len };
        let at = random.below(near.max(1));
        match random.below(6) {
            0 if len > 0 => file.bytes[at] ^= 1 << random.below(8),
            1 if len > 0 => file.bytes[at] = random.next() as u8,
            2 => file.bytes.truncate(at),
            3 => file.bytes.push(random.next() as u8),
            4 if len > 0 => {
                file.bytes.remove(at);
            }
            _ => file.bytes.insert(at, random.of(&[0, 1, 0x80, 0xff])),
        }
    }
    run.read(&file, random);
}

pub const SETS: u64 = 64 * 11;

// One item: a file spoilt in each way of a set of the six refusals, by their places in ORDER; after all sets, in one way or two.
pub fn flawed_item(run: &mut Run, index: u64, random: &mut Random) {
    let set = if index < SETS { index % 64 } else { one_or_two(random) };
    let has = |number: u32| set >> ORDER.iter().position(|&tested| tested == number).unwrap() & 1 == 1;
    let (usual, n) = sizes(index / 64, random);
    let m = if has(8) { random.of(&[0, 4097, 5000]) } else { usual };
    let mut arrays = [samples(m, random), samples(m, random)];
    if has(6) && m > 0 {
        for _ in 0..1 + random.below(3) {
            arrays[random.below(2)][random.below(m)] = random.of(&[LARGEST + 1, -LARGEST - 1, i32::MIN, i32::MAX]);
        }
    }
    let length = if has(1) { random.of(&[0, 3, n as u32 + 2048, 2048, 1 << 31, u32::MAX]) } else { n as u32 };
    let mut file = File { bytes: file_of(m as u32, length, &arrays[0], &arrays[1]), a_words: m, b_words: m };
    if has(9) {
        change_length(&mut file.bytes, random);
    }
    if has(3) {
        shorten(&mut file, m, random);
    }
    if has(8) && has(9) && random.one_in(2) {
        let m = random.of(&[0, 4097, 1 << 31, u32::MAX]);
        file.bytes[..4].copy_from_slice(&m.to_le_bytes());
    }
    if has(7) {
        file.bytes.truncate(random.of(&[0, 3, 4, 5, 6, 7, 7]));
    }
    run.read(&file, random);
}

// a few bytes more or fewer, with the sizes left whole
fn change_length(bytes: &mut Vec<u8>, random: &mut Random) {
    let by = random.of(&[1, 4, 7, 8]);
    if random.one_in(2) || bytes.len() < 8 + by {
        bytes.resize(bytes.len() + by, 0x7f);
    } else {
        bytes.truncate(bytes.len() - by);
    }
}

fn shorten(file: &mut File, m: usize, random: &mut Random) {
    let words = random.of(&[m.saturating_sub(1), m.saturating_sub(1), m / 2, 0]);
    match random.below(3) {
        0 => file.a_words = words,
        1 => file.b_words = words,
        _ => (file.a_words, file.b_words) = (words, words),
    }
}
