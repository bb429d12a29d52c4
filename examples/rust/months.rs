// Both abutments' months in Rust, for two owners: adds all blocks of pair files to a month of a and to a month of b, each file for a party, and
// prints the sums of both parties.
//     months PARTY FILE [PARTY FILE ..]        party 1 is the road owner, 2 the rail owner
// It prints the length of the months and, for each party, its number of blocks, a heading, and a line for each k. The months are begun for the first
// file's block length; the library refuses (13) the first block of another length, and (15) a block of any other party. A file without a block adds
// nothing, whatever its party.
// Exit status: 0 the sums are printed; 1 the library refuses a file or a block; 2 a file could not be read, the output not be written, or the
// arguments are wrong.
// examples/build compiles it; examples/months.txt is what it prints for examples/train_crossing.pair, added by party 1, by party 2 and by party 1
// again. include/mealbis.h says what the calls do.
#[path = "../../bindings/rust/mealbis.rs"]
mod mealbis;
mod pair_file;

use mealbis::{read, scratch_words, spectrum_words, Month, Refused, MOST_FILE_SAMPLES};
use pair_file::{get_file, refuse};
use std::io::Write;
use std::process::exit;

// Adds all blocks of a recording to a month, for a party.
fn add_blocks(month: &mut Month, party: usize, recording: &[i32], length: usize) -> Result<(), Refused> {
    let (mut cosine, mut sine, mut scratch) = (vec![0; spectrum_words(length)], vec![0; spectrum_words(length)], vec![0; scratch_words(length)]);
    for block in 0..recording.len() / length {
        month.add(party, recording, block * length, length, u64::MAX, &mut cosine, &mut sine, &mut scratch)?;
    }
    Ok(())
}

// Adds the file's blocks to the months of a and b, which are begun before the first file's.
fn add_file(months: &mut Option<[Month; 2]>, party: usize, file: &[u8]) -> Result<(), Refused> {
    let (mut a, mut b) = (vec![0; MOST_FILE_SAMPLES], vec![0; MOST_FILE_SAMPLES]);
    let (samples, length) = read(file, &mut a, &mut b)?;
    if months.is_none() {
        *months = Some([Month::begin(length)?, Month::begin(length)?]);
    }
    for (month, recording) in months.iter_mut().flatten().zip([a, b]) {
        add_blocks(month, party, &recording[..samples], length)?;
    }
    Ok(())
}

fn printed([a, b]: &[Month; 2]) -> Result<String, Refused> {
    let mut lines = format!("length {}\n", a.length());
    for party in 1..=2 {
        lines += &format!("party {party} blocks {}\nk cosine_a sine_a cosine_b sine_b\n", a.blocks(party)?);
        for k in 0..spectrum_words(a.length()) {
            let (a, b) = (a.sums(party, k)?, b.sums(party, k)?);
            lines += &format!("{k} {} {} {} {}\n", a.cosine, a.sine, b.cosine, b.sine);
        }
    }
    Ok(lines)
}

// The parties, numbers of digits alone, with their files; the library says whether a number is a party.
fn read_words() -> Option<Vec<(usize, String)>> {
    let words: Vec<String> = std::env::args().skip(1).collect();
    let number = |word: &String| if word.starts_with('+') { None } else { word.parse().ok() };
    let pairs: Option<Vec<_>> = words.chunks(2).map(|pair| Some((number(&pair[0])?, pair.get(1)?.clone()))).collect();
    pairs.filter(|pairs| !pairs.is_empty())
}

fn main() {
    let mut months = None;
    for (party, path) in read_words().unwrap_or_default() {
        let file = get_file("months", &path);
        add_file(&mut months, party, &file).unwrap_or_else(|refused| refuse(refused, &path));
    }
    let Some(months) = months else {
        eprintln!("usage: months PARTY FILE [PARTY FILE ..]");
        exit(2);
    };
    let lines = printed(&months).unwrap_or_else(|refused| refuse(refused, "the months"));
    exit(if std::io::stdout().write_all(lines.as_bytes()).is_ok() { 0 } else { 2 });
}
