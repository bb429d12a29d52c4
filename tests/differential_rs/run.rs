// Makes a call on the library and holds everything that it leaves behind to documents 01 and 02.
use crate::calls::{Answer, Call, Kind, Rules};
use crate::exact::{distance, within, Part};
use crate::files::File;
use crate::library::*;
use crate::marked::Marking;
use crate::mealbis::raw::*;
use crate::mealbis::{scratch_words, Size};
use crate::months::{LentMonth, Month, FIRST_COSINE, FIRST_SINE};
use crate::pages::Printing;
use crate::random::Random;
use crate::record::{adding, function_of, Record, BEGIN, BLOCKS, COUNTS, INVERSE, MARK, PAGE, READ, SUMS, WRITE};
use crate::stored::{rounded, Stored, StoredAnswer};
use crate::written::Writing;

pub struct Run {
    pub rules: Rules,
    pub record: Record,
    // what was not as the documents say, in words
    pub failures: Vec<String>,
}

impl Run {
    pub fn new() -> Run {
        Run { rules: Rules::new(), record: Record::default(), failures: Vec::new() }
    }

    // ---- calls on recordings

    // `wanted` is a coefficient to be held to its exact sum beside the usual ones; the larger of its distances is returned.
    pub fn call(&mut self, call: &Call, wanted: usize, random: &mut Random) -> u128 {
        self.made(call, wanted, random).0
    }

    // the coefficients that the library gives for an accepted call of Cosine
    pub fn coefficients(&mut self, call: &Call, random: &mut Random) -> Vec<i32> {
        self.made(call, 0, random).1.result_words()[0][..call.length].to_vec()
    }

    fn made(&mut self, call: &Call, wanted: usize, random: &mut Random) -> (u128, LentCall) {
        let answer = self.rules.answer(call);
        let mut lent = LentCall::new(call, &answer, None, random);
        let number = lent.make(call, Beside::Nothing);

        let mut wrong = lent.differences();
        wrong.extend(wrong_number(number, answer.number));
        let mut apart = 0;
        if wrong.is_empty() && number == 0 {
            (apart, wrong) = self.distances(call, &lent.result_words(), wanted, random);
        }
        self.note(call, &answer);
        self.fail(wrong, || described(call));
        (apart, lent)
    }

    fn note(&mut self, call: &Call, answer: &Answer) {
        let holding: Vec<u32> = (1..=6).filter(|&condition| self.rules.holds(call, condition)).collect();
        self.record.answer(function_of(call.kind), answer.number, &holding);
        if answer.outcome.as_ref().is_some_and(|outcome| outcome.largest_rest == 1 << 29) {
            self.record.ties[function_of(call.kind)] += 1;
        }
    }

    fn distances(&mut self, call: &Call, results: &[&[i32]], wanted: usize, random: &mut Random) -> (u128, Vec<String>) {
        let level = call.length.trailing_zeros() as usize;
        self.record.blocks[level] += call.kind.recordings() as u64;
        let blocks = call.blocks();
        let (mut of_wanted, mut wrong) = (0, Vec::new());
        for k in sampled(call.kind, call.length, wanted, random) {
            for (part, words) in parts(call.kind).iter().zip(results) {
                let apart = distance(words[k], part.exact(&self.rules.circle, &blocks, k));
                self.record.distance(level, *part, apart);
                if k == wanted {
                    of_wanted = apart.max(of_wanted);
                }
                if !within(apart, part.limit(call.length)) {
                    wrong.push(format!("coefficient {k} is {} thousandths from its exact sum", (apart * 1000) >> 80));
                }
            }
        }
        (of_wanted, wrong)
    }

    // ---- Spectrum with a mark

    pub fn mark(&mut self, marking: &Marking, random: &mut Random) {
        let (answer, mark) = marking.answer(&self.rules);
        let mut lent = LentCall::new(&marking.call, &answer, Some(mark), random);
        let number = lent.make(&marking.call, Beside::Figures(marking.flat_limit, marking.clip_level));

        let mut wrong = lent.differences();
        wrong.extend(wrong_number(number, answer.number));
        if let Some(outcome) = &answer.outcome {
            self.record.rules[marking.rules_met(&outcome.results)] += 1;
        }
        self.record.answer(MARK, answer.number, &marking.holding(&self.rules));
        self.fail(wrong, || format!("mark by flat limit {} and clip level {}, of {}", marking.flat_limit, marking.clip_level, described(&marking.call)));
    }

    // ---- months

    pub fn begin(&mut self, month: &mut LentMonth, length: usize) {
        let (begun, correct) = Month::begun(length);
        month.month = begun;
        month.lent.expect(&month.month.words);
        let number = unsafe { mealbis_month_begin(month.lent.pointer().cast(), length as Size) };
        self.record.answer(BEGIN, correct, &[]);
        self.end(vec![month.lent.difference()], number, correct, || format!("a month begun for {length}"));
    }

    // the number that document 02 answers
    pub fn add(&mut self, month: &mut LentMonth, party: usize, call: &Call, random: &mut Random) -> u32 {
        let holding = month.month.holding(party, call, &self.rules);
        let held = (month.month.words[0], month.month.blocks(1), month.month.blocks(2));
        let answer = month.month.add(party, call, &self.rules);
        let mut lent = LentCall::new(call, &answer, None, random);
        month.lent.expect(&month.month.words);
        let number = lent.make(call, Beside::Month(month.lent.pointer(), party as Size));

        let mut wrong = lent.differences();
        wrong.extend(month.lent.difference());
        wrong.extend(wrong_number(number, answer.number));
        if answer.number == 0 {
            self.record.added[party - 1][call.length.trailing_zeros() as usize] += 1;
        }
        self.record.answer(adding(party), answer.number, &holding);
        self.fail(wrong, || format!("party {party}: added to a month of {held:?}, its first word and block numbers, {}", described(call)));
        answer.number
    }

    // The sums that stand in the party's account, for some k. The month was begun before these calls of the party were accepted.
    pub fn month_distances(&mut self, month: &LentMonth, party: usize, history: &[Call], random: &mut Random) {
        let (length, words) = (month.month.length(), month.account(party));
        let mut wrong = Vec::new();
        for k in sampled(Kind::Spectrum, length, random.below(length), random) {
            for (part, first) in [(Part::CosineDft, FIRST_COSINE), (Part::SineDft, FIRST_SINE)] {
                let exact = history.iter().map(|call| part.exact(&self.rules.circle, &call.blocks(), k)).sum();
                let apart = distance(words[first + k], exact);
                self.record.month_sums[party - 1][length.trailing_zeros() as usize] += 1;
                let (over, under) = part.limit(length);
                if !within(apart, (history.len() * over, under)) {
                    wrong.push(format!("the sum in word {} is {} thousandths from the exact one", first + k, (apart * 1000) >> 80));
                }
            }
        }
        self.fail(wrong, || format!("a month of {} with {} blocks of party {party}", length, history.len()));
    }

    // the length and the block number, too
    pub fn sums(&mut self, month: &mut LentMonth, party: usize, k: usize, random: &mut Random) {
        let (blocks, sums, holding) = (month.month.blocks(party), month.month.sums(party, k), month.month.holding_reading(party, k));
        let (cosine, sine) = sums.unwrap_or((0, 0));
        let mut records = [record("the block number", &[blocks.unwrap_or(0)], random), record("the two sums", &[cosine, sine], random)];
        let lent = month.lent.pointer().cast();
        let [told, told_sums] = records.each_mut().map(Lent::pointer);
        let number_of_blocks = unsafe { mealbis_month_blocks(lent, party as Size, told.cast()) };
        let number = unsafe { mealbis_month_sums(lent, party as Size, k as Size, told_sums.cast()) };
        let length = unsafe { mealbis_month_length(lent) as usize };

        let (correct_blocks, correct) = (if blocks.is_some() { 0 } else { 15 }, holding.first().copied().unwrap_or(0));
        let mut found = vec![month.lent.difference()];
        found.extend(records.iter().map(Lent::difference));
        found.push((length != month.month.length()).then(|| format!("the length is {length} and not {}", month.month.length())));
        found.push(wrong_number(number_of_blocks, correct_blocks));
        self.record.answer(BLOCKS, correct_blocks, &[]);
        self.record.answer(SUMS, correct, &holding);
        self.end(found, number, correct, || format!("the block number and the sums for {k} of party {party}, first word {}", month.month.words[0]));
    }

    // ---- pages

    pub fn page(&mut self, call: &Printing, random: &mut Random) {
        let (correct, written) = call.answer();
        let mut rows = [Lent::holding("cosine", &call.cosine, random), Lent::holding("sine", &call.sine, random)];
        let mut page = Lent::filled("the page", call.bytes, random);
        let mut record = record("the record: bytes", &[written.len() as u64], random);
        page.expect(&written);
        let number = {
            let [(cosine, cosine_len), (sine, sine_len)] = rows.each_mut().map(Lent::given);
            let sine = if call.same_words { cosine } else { sine };
            let (bytes, bytes_len) = page.given();
            unsafe { mealbis_page(cosine, cosine_len, sine, sine_len, call.length as Size, bytes, bytes_len, record.pointer().cast()) }
        };

        let mut found = vec![page.difference(), record.difference()];
        found.extend(rows.iter().map(Lent::difference));
        if correct == 0 {
            self.record.page(call.length, [&call.cosine, &call.sine]);
        }
        self.record.answer(PAGE, correct, &call.holding());
        self.end(found, number, correct, || call.to_string());
    }

    // ---- the inverse DCT

    // Where a block is given, the coefficients are those of its DCT, and each value must be within N of its sample. The largest distance
    // before the last rounding is returned, times N · 2^30.
    pub fn back(&mut self, call: &Stored, block: Option<&[i32]>, random: &mut Random) -> u128 {
        let answer = call.answer(&self.rules.circle);
        let mut coefficients = Lent::holding("the coefficients", &call.coefficients, random);
        let mut values = Lent::filled("the values", call.values, random);
        let mut record = record("the record: place", &[answer.place as u64], random);
        values.expect(&answer.sums.iter().map(|&sum| rounded(sum, call.length)).collect::<Vec<_>>());
        let number = {
            let ((given, given_len), (back, back_len)) = (coefficients.given(), values.given());
            unsafe { mealbis_inverse_dct(given, given_len, call.length as Size, back, back_len, record.pointer().cast()) }
        };

        let mut wrong = differences(&[coefficients.difference(), values.difference(), record.difference()]);
        wrong.extend(wrong_number(number, answer.number));
        let mut apart = 0;
        if let Some(x) = block {
            apart = self.trip(x, &answer, values.words(), &mut wrong);
        }
        self.record.answer(INVERSE, answer.number, &call.holding());
        self.fail(wrong, || call.to_string());
        apart
    }

    fn trip(&mut self, x: &[i32], answer: &StoredAnswer, values: &[i32], wrong: &mut Vec<String>) -> u128 {
        if answer.number != 0 {
            wrong.push(format!("the coefficients of a block are refused by {}", answer.number));
            return 0;
        }
        let one = (x.len() as i128) << 30;
        let before = (0..x.len()).map(|n| (answer.sums[n] - x[n] as i128 * one).unsigned_abs()).max().unwrap();
        let after = (0..x.len()).map(|n| values[n].abs_diff(x[n])).max().unwrap();
        if after as usize > x.len() {
            wrong.push(format!("a value is {after} from its sample"));
        }
        self.record.trip(x.len(), after, before);
        before
    }

    // ---- the count query, the reader and the writer

    pub fn counts(&mut self, length: usize, random: &mut Random) {
        let expected = self.rules.counts(length);
        let six = expected.map_or([0; 6], |c| [c.dct.products, c.dct.sums, c.spectrum.products, c.spectrum.sums, c.pair.products, c.pair.sums]);
        let mut record = record("the six counts", &six, random);
        let number = unsafe { mealbis_counts(length as Size, record.pointer().cast()) };

        let correct = if expected.is_some() { 0 } else { 1 };
        self.record.answer(COUNTS, correct, &[]);
        self.end(vec![record.difference()], number, correct, || format!("counts of length {length}"));
    }

    // the words that stand in both recordings then
    pub fn read(&mut self, file: &File, random: &mut Random) -> [Vec<i32>; 2] {
        let answer = file.answer();
        let mut bytes = Lent::holding("the file", &file.bytes, random);
        let mut recordings = [Lent::filled("a", file.a_words, random), Lent::filled("b", file.b_words, random)];
        let told = [answer.sizes.0, answer.sizes.1, answer.place].map(|size| size as u64);
        let mut record = record("the record: m, N, place", &told, random);
        for (recording, samples) in recordings.iter_mut().zip(&answer.samples) {
            recording.expect(samples);
        }
        let number = {
            let [(a, a_len), (b, b_len)] = recordings.each_mut().map(Lent::given);
            let (data, data_len) = bytes.given();
            unsafe { mealbis_read(data, data_len, a, a_len, b, b_len, record.pointer().cast()) }
        };

        let mut found = vec![bytes.difference(), record.difference()];
        found.extend(recordings.iter().map(Lent::difference));
        self.record.answer(READ, answer.number, &file.holding());
        self.end(found, number, answer.number, || file.described());
        recordings.map(|recording| recording.words().to_vec())
    }

    // the bytes that stand in the buffer then
    pub fn write(&mut self, call: &Writing, random: &mut Random) -> Vec<u8> {
        let answer = call.answer();
        let mut recordings = [Lent::holding("a", &call.a, random), Lent::holding("b", &call.b, random)];
        let mut file = Lent::filled("the file", call.bytes, random);
        let mut record = record("the record: bytes, place", &[answer.file.len() as u64, answer.place as u64], random);
        file.expect(&answer.file);
        let number = {
            let [(a, a_len), (b, b_len)] = recordings.each_mut().map(Lent::given);
            let b = if call.same_words { a } else { b };
            let (bytes, bytes_len) = file.given();
            unsafe { mealbis_write(a, a_len, b, b_len, call.length as Size, bytes, bytes_len, record.pointer().cast()) }
        };

        let mut found = vec![file.difference(), record.difference()];
        found.extend(recordings.iter().map(Lent::difference));
        self.record.answer(WRITE, answer.number, &call.holding());
        self.end(found, number, answer.number, || call.to_string());
        file.words().to_vec()
    }

    // ---- failures

    // of two calls together
    pub fn require(&mut self, holds: bool, otherwise: &str, what: impl Fn() -> String) {
        self.fail(if holds { vec![] } else { vec![otherwise.to_string()] }, what);
    }

    // of one call
    fn end(&mut self, found: Vec<Option<String>>, number: u32, correct: u32, what: impl Fn() -> String) {
        let mut wrong = differences(&found);
        wrong.extend(wrong_number(number, correct));
        self.fail(wrong, what);
    }

    fn fail(&mut self, wrong: Vec<String>, what: impl Fn() -> String) {
        if !wrong.is_empty() {
            self.failures.push(format!("{}\n    {}", what(), wrong.join("\n    ")));
        }
    }
}

// ---- the memory lent to one call

struct LentCall {
    recordings: Vec<Lent<i32>>,
    results: Vec<Lent<i32>>,
    scratch: Lent<i64>,
    record: Lent<u64>,
}

// What is given to a call of Spectrum beside its own: the figures of a mark, or the words of a month and the party.
enum Beside {
    Nothing,
    Figures(i32, i32),
    Month(*mut i64, Size),
}

impl LentCall {
    // memory in which this answer should stand after the call, and the mark where it has one
    fn new(call: &Call, answer: &Answer, mark: Option<u64>, random: &mut Random) -> LentCall {
        let names = match call.kind {
            Kind::Spectrum => ["cosine", "sine"],
            Kind::Cosine => ["the coefficients", ""],
            Kind::Pair => ["real", "imaginary"],
        };
        let (products, sums, rest) = answer.outcome.as_ref().map_or((0, 0, 0), |outcome| (outcome.tally.products, outcome.tally.sums, outcome.largest_rest));
        let told: Vec<u64> = [products, sums, rest, answer.place as u64].into_iter().chain(mark).collect();
        let mut lent = LentCall {
            recordings: call.recordings.iter().map(|samples| Lent::holding("a recording", samples, random)).collect(),
            results: call.results.iter().zip(names).map(|(&words, name)| Lent::filled(name, words, random)).collect(),
            scratch: Lent::filled("scratch", call.scratch, random),
            record: record("the record: products, sums, largest rest, place and mark", &told, random),
        };
        if let Some(outcome) = &answer.outcome {
            for (lent, words) in lent.results.iter_mut().zip(&outcome.results) {
                lent.expect(words);
            }
            lent.scratch.expect(&vec![0; scratch_words(call.length)]);
        }
        lent
    }

    fn make(&mut self, call: &Call, beside: Beside) -> u32 {
        let (start, length, allowance) = (call.start as Size, call.length as Size, call.allowance);
        let lent: Vec<(*mut i32, Size)> = self.recordings.iter_mut().map(Lent::given).collect();
        let out: Vec<(*mut i32, Size)> = self.results.iter_mut().map(Lent::given).collect();
        let (a, a_len) = lent[0];
        let (b, b_len) = if call.same_words { lent[0] } else { lent[lent.len() - 1] };
        let ((y, y_len), (z, z_len)) = (out[0], out[out.len() - 1]);
        let (work, work_len) = self.scratch.given();
        let record = self.record.pointer();
        unsafe {
            match (call.kind, beside) {
                (Kind::Spectrum, Beside::Nothing) => {
                    mealbis_spectrum(a, a_len, start, length, allowance, y, y_len, z, z_len, work, work_len, record.cast())
                }
                (Kind::Spectrum, Beside::Figures(flat, clip)) => {
                    mealbis_mark(a, a_len, start, length, allowance, flat, clip, y, y_len, z, z_len, work, work_len, record.cast())
                }
                (Kind::Spectrum, Beside::Month(month, party)) => {
                    mealbis_month_add(month.cast(), party, a, a_len, start, length, allowance, y, y_len, z, z_len, work, work_len, record.cast())
                }
                (Kind::Cosine, _) => mealbis_cosine(a, a_len, start, length, allowance, y, y_len, work, work_len, record.cast()),
                (Kind::Pair, _) => mealbis_pair(a, a_len, b, b_len, start, length, allowance, y, y_len, z, z_len, work, work_len, record.cast()),
            }
        }
    }

    fn differences(&self) -> Vec<String> {
        let mut found: Vec<Option<String>> = self.recordings.iter().chain(&self.results).map(Lent::difference).collect();
        found.extend([self.scratch.difference(), self.record.difference()]);
        differences(&found)
    }

    fn result_words(&self) -> Vec<&[i32]> {
        self.results.iter().map(Lent::words).collect()
    }
}

// ---- small parts

fn wrong_number(number: u32, correct: u32) -> Option<String> {
    if number == correct {
        None
    } else {
        Some(format!("the answer is {number} and not {correct}"))
    }
}

fn parts(kind: Kind) -> &'static [Part] {
    match kind {
        Kind::Spectrum => &[Part::CosineDft, Part::SineDft],
        Kind::Cosine => &[Part::Dct],
        Kind::Pair => &[Part::Real, Part::Imaginary],
    }
}

// The k that are held to their exact sums: all for N up to 64 and for some longer blocks, else 0, 1, N/4, N/2, the last, the wanted one and random ones.
fn sampled(kind: Kind, n: usize, wanted: usize, random: &mut Random) -> Vec<usize> {
    let listed = kind.listed(n);
    if n <= 64 || random.one_in(32) {
        return (0..listed).collect();
    }
    // by (9) and (10), a wave that excites k excites N − k
    let mirrored = if wanted < listed { wanted } else { n - wanted };
    let mut ks = vec![0, 1, n / 4, n / 2, listed - 1, mirrored];
    ks.extend((0..6).map(|_| random.below(listed)));
    ks
}

fn described(call: &Call) -> String {
    let lens: Vec<usize> = call.recordings.iter().map(Vec::len).collect();
    let blocks: Vec<&[i32]> = call.blocks().iter().map(|block| &block[..block.len().min(16)]).collect();
    format!(
        "{:?}: recordings of {:?} samples, start {}, length {}, allowance {}, result buffers of {:?} words, scratch of {} words{}\n    the blocks begin {:?}",
        call.kind,
        lens,
        call.start,
        call.length,
        call.allowance,
        call.results,
        call.scratch,
        if call.same_words { ", b is lent as the words of a" } else { "" },
        blocks
    )
}
