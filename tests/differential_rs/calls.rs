// A call on recordings, and document 01's answer to it.
use crate::circle::Circle;
use crate::mealbis::scratch_words;
use crate::transforms::{self, Outcome, Tally};

pub const LENGTHS: [usize; 11] = [1, 2, 4, 8, 16, 32, 64, 128, 256, 512, 1024];
pub const LARGEST: i32 = 1_000_000;
pub const KINDS: [Kind; 3] = [Kind::Spectrum, Kind::Cosine, Kind::Pair];

#[derive(Clone, Copy, PartialEq, Debug)]
pub enum Kind {
    Spectrum,
    Cosine,
    Pair,
}

#[derive(Clone)]
pub struct Call {
    pub kind: Kind,
    // one recording; a and b for Pair
    pub recordings: Vec<Vec<i32>>,
    // Pair: b is lent as the very words of a
    pub same_words: bool,
    pub start: usize,
    pub length: usize,
    pub allowance: u64,
    // the words lent in each result buffer
    pub results: Vec<usize>,
    pub scratch: usize,
}

// Document 01's answer: 0 and the outcome, or the number of a refusal.
pub struct Answer {
    pub number: u32,
    pub place: usize,
    pub outcome: Option<Outcome>,
}

// The counts of a length for each kind of call.
#[derive(Clone, Copy, PartialEq, Debug)]
pub struct Counts {
    pub dct: Tally,
    pub spectrum: Tally,
    pub pair: Tally,
}

impl Counts {
    // the tallies of a block of zeros: the length alone decides
    pub fn of(circle: &Circle, length: usize) -> Counts {
        let zeros = vec![0; length];
        Counts {
            dct: transforms::cosine(circle, &zeros).tally,
            spectrum: transforms::spectrum(circle, &zeros).tally,
            pair: transforms::pair(circle, &zeros, &zeros).tally,
        }
    }

    pub fn of_kind(&self, kind: Kind) -> Tally {
        match kind {
            Kind::Spectrum => self.spectrum,
            Kind::Cosine => self.dct,
            Kind::Pair => self.pair,
        }
    }
}

// the eleven lengths with their counts
pub struct Rules {
    pub circle: Circle,
    counts: Vec<Counts>,
}

impl Rules {
    pub fn new() -> Rules {
        let circle = Circle::new();
        let counts = LENGTHS.iter().map(|&n| Counts::of(&circle, n)).collect();
        Rules { circle, counts }
    }

    // None where N is not one of the eleven lengths
    pub fn counts(&self, length: usize) -> Option<Counts> {
        let level = LENGTHS.iter().position(|&n| n == length)?;
        Some(self.counts[level])
    }

    pub fn answer(&self, call: &Call) -> Answer {
        let refusal = (1..=6).find(|&number| self.holds(call, number));
        let outcome = if refusal.is_none() { Some(self.outcome(call)) } else { None };
        let place = if refusal == Some(6) { call.first_out().unwrap() } else { 0 };
        Answer { number: refusal.unwrap_or(0), place, outcome }
    }

    // Whether the condition of a refusal holds, whatever the others do. Only the eleven lengths have counts: for another one, an allowance of 0 stands for condition 5.
    pub fn holds(&self, call: &Call, number: u32) -> bool {
        let n = call.length as u128;
        match number {
            1 => self.counts(call.length).is_none(),
            2 => call.recordings.iter().any(|recording| call.start as u128 + n > recording.len() as u128),
            3 => call.results.iter().any(|&words| (words as u128) < call.kind.listed(call.length) as u128),
            4 => call.scratch < scratch_words(call.length),
            5 => self.counts(call.length).map_or(call.allowance == 0, |counts| call.allowance < counts.of_kind(call.kind).products),
            6 => call.first_out().is_some(),
            _ => false,
        }
    }

    fn outcome(&self, call: &Call) -> Outcome {
        let blocks = call.blocks();
        match call.kind {
            Kind::Spectrum => transforms::spectrum(&self.circle, blocks[0]),
            Kind::Cosine => transforms::cosine(&self.circle, blocks[0]),
            Kind::Pair => transforms::pair(&self.circle, blocks[0], blocks[1]),
        }
    }
}

impl Kind {
    pub fn recordings(self) -> usize {
        if self == Kind::Pair {
            2
        } else {
            1
        }
    }

    pub fn results(self) -> usize {
        if self == Kind::Cosine {
            1
        } else {
            2
        }
    }

    // how many coefficients each result buffer takes
    pub fn listed(self, length: usize) -> usize {
        if self == Kind::Spectrum {
            length / 2 + 1
        } else {
            length
        }
    }
}

impl Call {
    // the samples of the block in each recording, as far as the recording has them
    pub fn blocks(&self) -> Vec<&[i32]> {
        self.recordings.iter().map(|recording| part(recording, self.start, self.length)).collect()
    }

    // the place of the first sample out of range, a before b
    fn first_out(&self) -> Option<usize> {
        let out = |block: &&[i32]| block.iter().position(|&v| !in_range(v));
        self.blocks().iter().find_map(out).map(|at| self.start + at)
    }
}

pub fn in_range(sample: i32) -> bool {
    -LARGEST <= sample && sample <= LARGEST
}

fn part(recording: &[i32], start: usize, length: usize) -> &[i32] {
    let from = start.min(recording.len());
    let to = start.saturating_add(length).min(recording.len());
    &recording[from..to]
}
