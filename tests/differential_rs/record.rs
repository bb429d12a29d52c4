// What a run has seen: calls, answers, refusals that held together, and the largest distances.
use crate::calls::{Kind, LENGTHS};
use crate::exact::{Part, ONE, PARTS};
use std::collections::BTreeSet;

// The functions of the library, in the order of FUNCTIONS.
pub const FUNCTIONS: [&str; 15] = [
    "Spectrum", "Cosine", "Pair", "counts", "read", "inverse DCT", "write", "mark", "month begin", "add, party 1", "add, party 2", "add, neither",
    "month blocks", "month sums", "page",
];
pub const COUNTS: usize = 3;
pub const READ: usize = 4;
pub const INVERSE: usize = 5;
pub const WRITE: usize = 6;
pub const MARK: usize = 7;
pub const BEGIN: usize = 8;
pub const ADD_1: usize = 9;
pub const ADD_2: usize = 10;
pub const ADD_NEITHER: usize = 11;
pub const BLOCKS: usize = 12;
pub const SUMS: usize = 13;
pub const PAGE: usize = 14;

pub fn function_of(kind: Kind) -> usize {
    match kind {
        Kind::Spectrum => 0,
        Kind::Cosine => 1,
        Kind::Pair => 2,
    }
}

// of adding, by the party
pub fn adding(party: usize) -> usize {
    match party {
        1 => ADD_1,
        2 => ADD_2,
        _ => ADD_NEITHER,
    }
}

#[derive(Default)]
pub struct Record {
    // calls by function and by the number answered
    answers: [[u64; 17]; 15],
    // the sets of refusals whose conditions held on a call, by function
    together: [BTreeSet<Vec<u32>>; 15],
    // accepted blocks, and coefficients compared with their exact sums, by level
    pub blocks: [u64; 11],
    pub coefficients: [u64; 11],
    largest: [[u128; 5]; 11],
    // round trips by level: how many, and the largest distance after the last rounding and, times N · 2^30, before it
    trips: [(u64, u32, u128); 11],
    // marked blocks by the rules that they meet: none, flat, clipped, both
    pub rules: [u64; 4],
    // accepted calls of Spectrum, Cosine and Pair that round a tie, whose rest is the largest that there is
    pub ties: [u64; 3],
    // blocks added to months, and sums of months compared with their exact sums, by party and by level
    pub added: [[u64; 11]; 2],
    pub month_sums: [[u64; 11]; 2],
    // pages by level, and the numbers in their columns of cosine and sine: negative or not, by their digits
    pages: [u64; 11],
    pub digits: [[[u64; 10]; 2]; 2],
}

impl Record {
    pub fn answer(&mut self, function: usize, number: u32, holding: &[u32]) {
        self.answers[function][number as usize] += 1;
        if !self.together[function].contains(holding) {
            self.together[function].insert(holding.to_vec());
        }
    }

    pub fn trip(&mut self, n: usize, after: u32, before: u128) {
        let (trips, furthest, exactly) = &mut self.trips[n.trailing_zeros() as usize];
        *trips += 1;
        *furthest = after.max(*furthest);
        *exactly = before.max(*exactly);
    }

    pub fn distance(&mut self, level: usize, part: Part, distance: u128) {
        self.coefficients[level] += 1;
        let largest = &mut self.largest[level][part as usize];
        *largest = distance.max(*largest);
    }

    pub fn page(&mut self, n: usize, columns: [&[i32]; 2]) {
        self.pages[n.trailing_zeros() as usize] += 1;
        for (column, numbers) in columns.into_iter().enumerate() {
            for &number in &numbers[..n / 2 + 1] {
                let digits = number.unsigned_abs().checked_ilog10().unwrap_or(0);
                self.digits[column][(number < 0) as usize][digits as usize] += 1;
            }
        }
    }

    // whether some call has met all of these refusals together
    pub fn met(&self, function: usize, refusals: &[u32]) -> bool {
        self.together[function].iter().any(|holding| refusals.iter().all(|number| holding.contains(number)))
    }

    pub fn calls(&self) -> u64 {
        self.answers.iter().flatten().sum()
    }

    pub fn all_blocks(&self) -> u64 {
        self.blocks.iter().sum()
    }

    // ---- what is printed

    pub fn summary(&self) -> String {
        let mut lines = Vec::new();
        let by_length = |of: &[u64; 11]| (0..11).map(|level| format!("{}: {}", LENGTHS[level], of[level])).collect::<Vec<_>>().join(", ");
        lines.push(format!("blocks by length       {}", by_length(&self.blocks)));
        lines.push(format!("held to exact sums     {}", by_length(&self.coefficients)));
        lines.push(format!("sent back              {}", by_length(&self.trips.map(|trips| trips.0))));
        let [none, flat, clipped, both] = self.rules;
        lines.push(format!("rules of marks met     none: {none}, flat: {flat}, clipped: {clipped}, both: {both}"));
        let [spectrum, cosine, pair] = self.ties;
        lines.push(format!("calls with a tie       Spectrum: {spectrum}, Cosine: {cosine}, Pair: {pair}"));
        for (i, (added, sums)) in self.added.iter().zip(&self.month_sums).enumerate() {
            lines.push(format!("added by party {}       {}", i + 1, by_length(added)));
            lines.push(format!("its sums held to exact {}", by_length(sums)));
        }
        lines.push(format!("pages by length        {}", by_length(&self.pages)));
        for (function, name) in FUNCTIONS.iter().enumerate() {
            let of = &self.answers[function];
            let numbers: Vec<String> = (0..of.len()).filter(|&number| of[number] > 0).map(|number| format!("{}: {}", number, of[number])).collect();
            lines.push(format!("answers of {:<12} {}", name, numbers.join(", ")));
        }
        lines.join("\n")
    }

    // docs/DISTANCES.md: the largest distances beside the limits
    pub fn document(&self, command: &str) -> String {
        let coefficients: u64 = self.coefficients.iter().sum();
        let rows: Vec<String> = (0..11).map(|level| self.row(level)).collect();
        DOCUMENT
            .replace("COMMAND", command)
            .replace("TRIPS", &with_commas(self.trips.iter().map(|trips| trips.0).sum()))
            .replace("BLOCKS", &with_commas(self.all_blocks()))
            .replace("COEFFICIENTS", &with_commas(coefficients))
            .replace("ROWS", &rows.join("\n"))
    }

    fn row(&self, level: usize) -> String {
        let n = LENGTHS[level];
        let [c, s, dct, real, imaginary] = PARTS.map(|part| decimal(self.largest[level][part as usize], ONE as u128));
        let [eighth, _, dct_limit, quarter, _] = PARTS.map(|part| limit(part.limit(n)));
        let blocks = with_commas(self.blocks[level]);
        let (_, trip, before) = self.trips[level];
        let before = decimal(before, (n as u128) << 30);
        format!("| {n} | {blocks} | {c} | {s} | {eighth} | {dct} | {dct_limit} | {real} | {imaginary} | {quarter} | {trip} | {before} | {n} |")
    }
}

const DOCUMENT: &str = "\
# Distances seen

The limits of document 01 are proved for every accepted block. This table shows how far results were from their exact sums on BLOCKS
blocks that the differential tests made: constant, alternating and random blocks, the ends of the range, steps, impulses, waves that
excite one k, ties, and blocks changed sample by sample to take one coefficient further away. The exact sums of COEFFICIENTS coefficients
were evaluated term by term: every k up to N = 64 and in one call of 32 on longer blocks, else some twelve k. A number is the largest
distance seen, over 2^80 and to the nearest thousandth; beside it stands the proved limit. The proofs add up the largest error of every
step; in a block these mostly cancel, so the distances seen grow more slowly than the limits. Up to N = 4 the cosine-DFT, the sine-DFT and
Pair are made without a product and are exact.

TRIPS of these blocks were sent through Cosine and back through the inverse DCT, some of them changed sample by sample to come back
further away. The round trip is the largest distance of a value from its sample, a whole number; beside it stand the same distance before
the value's own rounding, to the nearest thousandth, and the proved limit N.

Made by

    COMMAND

which gives the same table again.

| N | blocks | cosine-DFT | sine-DFT | limit N/8 | DCT | limit (N + 1)/4 | Pair, real | Pair, imaginary | limit N/4 | round trip | before its rounding | limit N |
|--:|--:|--:|--:|--:|--:|--:|--:|--:|--:|--:|--:|--:|
ROWS
";

// a distance over that of one, to the nearest thousandth
fn decimal(distance: u128, one: u128) -> String {
    let thousandths = (distance * 1000 + one / 2) / one;
    format!("{}.{:03}", thousandths / 1000, thousandths % 1000)
}

fn limit((over, under): (usize, usize)) -> String {
    format!("{:.3}", over as f64 / under as f64)
}

pub fn with_commas(number: u64) -> String {
    if number < 1000 {
        return number.to_string();
    }
    format!("{},{:03}", with_commas(number / 1000), number % 1000)
}
