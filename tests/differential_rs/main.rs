// Differential tests of the library over its C interface.
//
//     tests/differential [--seed S] [--seconds T | --rounds R] [--table FILE] [--item CLASS INDEX]
//
// Document 01 and requests (i) to (iii) and (v) to (viii) of document 02 are implemented here once more, and the exact sums are evaluated
// term by term. The answer of every call, its counts, its largest rest, its results and the words that it must not touch are compared with
// them. Each class of calls is gone through once, then in rounds until the time is up or R rounds are made. --table writes
// docs/DISTANCES.md, --item repeats one item.
// The last line is 'N passed, 0 failed', N the calls compared.
mod back;
mod blocks;
mod calls;
mod circle;
mod exact;
mod files;
mod hostile;
mod known;
mod library;
mod marked;
#[path = "../../bindings/rust/mealbis.rs"]
mod mealbis;
mod months;
mod pages;
mod random;
mod record;
mod rests;
mod run;
mod stored;
mod ties;
mod transforms;
mod written;

use random::Random;
use record::{with_commas, ADD_1, ADD_2, ADD_NEITHER, FUNCTIONS, INVERSE, MARK, PAGE, READ, SUMS, WRITE};
use run::Run;
use std::time::{Duration, Instant};

// A class of calls: an item is made from the seed, the class and the index alone.
struct Class {
    name: &'static str,
    item: fn(&mut Run, u64, &mut Random),
    // items that every run makes, and items of each further round
    once: u64,
    round: u64,
}

fn classes() -> Vec<Class> {
    let class = |name, item, once, round| Class { name, item, once, round };
    vec![
        class("known", known::item, known::known_calls() as u64, 0),
        class("counts", hostile::counts_item, hostile::COUNT_LENGTHS, 10),
        class("flawed", hostile::flawed_item, hostile::SETS, 64),
        class("extreme", hostile::extreme_item, 3000, 100),
        class("files", files::legal_item, 220, 11),
        class("damaged", files::damaged_item, 220, 22),
        class("flawed-files", files::flawed_item, files::SETS, 32),
        class("climb", blocks::climb_item, 33, 22),
        class("blocks", blocks::item, (blocks::PATTERNS * 11) as u64, (blocks::PATTERNS * 11) as u64),
        class("stored", back::stored_item, (stored::worked().len() + back::SHAPES * 11) as u64, 11),
        class("flawed-stored", back::flawed_item, back::SETS, 16),
        class("extreme-stored", back::extreme_item, 1000, 20),
        class("trips", back::trip_item, (blocks::PATTERNS * 11) as u64, 11),
        class("trip-climb", back::trip_climb_item, 11, 1),
        class("written", written::trip_item, 330, 11),
        class("written-again", written::again_item, 110, 11),
        class("flawed-written", written::flawed_item, written::SETS, 16),
        class("extreme-written", written::extreme_item, 1000, 20),
        class("marked", marked::item, (blocks::PATTERNS * 11) as u64 * 2, 11),
        class("flawed-marked", marked::flawed_item, marked::SETS, 16),
        class("extreme-marked", marked::extreme_item, 2000, 20),
        class("rests", rests::item, rests::ITEMS, 11),
        class("months", months::item, 330, 11),
        class("flawed-months", months::flawed_item, months::SETS, 16),
        class("extreme-months", months::extreme_item, 2000, 20),
        class("pages", pages::item, pages::SHAPES as u64 * 11 * 10, 22),
        class("flawed-pages", pages::flawed_item, pages::SETS, 16),
        class("extreme-pages", pages::extreme_item, 2000, 20),
    ]
}

const MOST_FAILURES: usize = 10;

struct Words {
    seed: u64,
    seconds: u64,
    rounds: Option<u64>,
    table: Option<String>,
    item: Option<(String, u64)>,
}

fn main() {
    let words = read_words();
    println!("differential: seed {}", words.seed);
    let mut run = Run::new();
    known::self_check(&run.rules);
    stored::self_check(&run.rules.circle);
    written::self_check();
    marked::self_check(&run.rules);
    months::self_check(&run.rules);
    pages::self_check();
    rests::self_check(&run.rules.circle);
    let rounds = match &words.item {
        Some((name, index)) => one_item(&mut run, words.seed, name, *index),
        None => whole_run(&mut run, &words),
    };
    finish(&run, &words, rounds);
}

// ---- running

// every class once, then the rounds; returns their number
fn whole_run(run: &mut Run, words: &Words) -> u64 {
    let end = Instant::now() + Duration::from_secs(words.seconds);
    let classes = classes();
    let mut next = vec![0; classes.len()];
    advance(run, words.seed, &classes, &mut next, |class| class.once);
    let mut rounds = 0;
    while words.rounds.map_or_else(|| Instant::now() < end, |wanted| rounds < wanted) {
        advance(run, words.seed, &classes, &mut next, |class| class.round);
        rounds += 1;
    }
    require_sets(run);
    require_rules(run);
    require_ties(run);
    require_digits(run);
    require_parties(run);
    rounds
}

// the next items of each class
fn advance(run: &mut Run, seed: u64, classes: &[Class], next: &mut [u64], count: impl Fn(&Class) -> u64) {
    for (which, class) in classes.iter().enumerate() {
        for _ in 0..count(class) {
            make(run, seed, which, class, next[which]);
            next[which] += 1;
        }
    }
}

fn make(run: &mut Run, seed: u64, which: usize, class: &Class, index: u64) {
    let before = run.failures.len();
    (class.item)(run, index, &mut Random::of_item(seed, which as u64, index));
    if run.failures.len() > before {
        for failure in &run.failures[before..] {
            println!("DIFFERENT {failure}");
        }
        println!("    again: tests/differential --seed {seed} --item {} {index}", class.name);
        if run.failures.len() >= MOST_FAILURES {
            println!("stopped after {} differences", run.failures.len());
            fail(run);
        }
    }
}

fn one_item(run: &mut Run, seed: u64, name: &str, index: u64) -> u64 {
    let classes = classes();
    let which = classes.iter().position(|class| class.name == name).unwrap_or_else(|| usage());
    make(run, seed, which, &classes[which], index);
    0
}

// Two or three refusals that can hold together must have done so on some call.
fn require_sets(run: &mut Run) {
    for function in [0, 1, 2, READ, INVERSE, WRITE, MARK, ADD_1, ADD_2, ADD_NEITHER, SUMS, PAGE] {
        let (order, impossible) = match function {
            READ => (&files::ORDER[..], &files::IMPOSSIBLE[..]),
            INVERSE => (&stored::ORDER[..], &[][..]),
            WRITE => (&written::ORDER[..], &[][..]),
            MARK => (&marked::ORDER[..], &[][..]),
            ADD_1 | ADD_2 => (&months::ORDER[1..], &[][..]),
            ADD_NEITHER => (&months::ORDER[..], &[][..]),
            SUMS => (&months::READING_ORDER[..], &[][..]),
            PAGE => (&pages::ORDER[..], &[][..]),
            _ => (&[1, 2, 3, 4, 5, 6][..], &[][..]),
        };
        for set in twos_and_threes(order) {
            let possible = !impossible.iter().any(|(first, second)| set.contains(first) && set.contains(second));
            if possible && !run.record.met(function, &set) {
                missing(run, format!("no call of {} met the refusals {set:?} together", FUNCTIONS[function]));
            }
        }
    }
}

// Blocks that meet no rule of a mark, one of the two, and both must have come up.
fn require_rules(run: &mut Run) {
    if run.record.rules.contains(&0) {
        missing(run, format!("marked blocks by the rules that they meet, none, flat, clipped, both: {:?}", run.record.rules));
    }
}

// So must a tie in each kind of call.
fn require_ties(run: &mut Run) {
    if run.record.ties.contains(&0) {
        missing(run, format!("calls of Spectrum, Cosine and Pair with a tie: {:?}", run.record.ties));
    }
}

// And in a page a number of each count of digits, negative and not, in both columns.
fn require_digits(run: &mut Run) {
    if run.record.digits.iter().flatten().flatten().any(|&count| count == 0) {
        missing(run, format!("numbers in pages, of cosine and of sine, not negative and negative, by their digits: {:?}", run.record.digits));
    }
}

// And at each length each party must have added blocks to months, and its sums have been held to exact ones.
fn require_parties(run: &mut Run) {
    if run.record.added.iter().chain(&run.record.month_sums).flatten().any(|&count| count == 0) {
        missing(run, format!("blocks added to months and sums held to exact ones: {:?}, {:?}", run.record.added, run.record.month_sums));
    }
}

fn missing(run: &mut Run, failure: String) {
    println!("DIFFERENT {failure}");
    run.failures.push(failure);
}

fn twos_and_threes(order: &[u32]) -> Vec<Vec<u32>> {
    let sets = (0..1u32 << order.len()).filter(|set| (2..=3).contains(&set.count_ones()));
    sets.map(|set| (0..order.len()).filter(|&i| set >> i & 1 == 1).map(|i| order[i]).collect()).collect()
}

// ---- the end

fn finish(run: &Run, words: &Words, rounds: u64) {
    println!("{}", run.record.summary());
    println!("{} blocks, {rounds} rounds", with_commas(run.record.all_blocks()));
    if !run.failures.is_empty() {
        fail(run);
    }
    if let Some(path) = &words.table {
        let command = format!("tests/differential --seed {} --rounds {rounds} --table docs/DISTANCES.md", words.seed);
        std::fs::write(path, run.record.document(&command)).expect("the table is written");
    }
    println!("{} passed, 0 failed", run.record.calls());
}

fn fail(run: &Run) -> ! {
    let failed = run.failures.len() as u64;
    println!("{} passed, {failed} failed", run.record.calls().saturating_sub(failed));
    std::process::exit(1)
}

fn read_words() -> Words {
    let mut words = Words { seed: 20260911, seconds: 45, rounds: None, table: None, item: None };
    let mut given = std::env::args().skip(1);
    while let Some(word) = given.next() {
        let mut value = || given.next().unwrap_or_else(|| usage());
        match word.as_str() {
            "--seed" => words.seed = number(&value()),
            "--seconds" => words.seconds = number(&value()),
            "--rounds" => words.rounds = Some(number(&value())),
            "--table" => words.table = Some(value()),
            "--item" => words.item = Some((value(), number(&value()))),
            _ => usage(),
        }
    }
    words
}

fn number(word: &str) -> u64 {
    word.parse().unwrap_or_else(|_| usage())
}

fn usage() -> ! {
    eprintln!("usage: tests/differential [--seed S] [--seconds T | --rounds R] [--table FILE] [--item CLASS INDEX]");
    std::process::exit(2)
}
