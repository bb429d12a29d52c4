// Pages for the site binder in Rust: takes the spectrum of each block of an abutment's recording in a pair file and prints its page, one behind
// another.
//     binder_pages a|b FILE [BLOCK]        the page of one block where there is a BLOCK, counted from 0
// A file without a block prints nothing.
// Exit status: 0 the pages are printed; 1 the library refuses the file; 2 the arguments are wrong, there is no such block, the file could not be read
// or the output not be written.
// examples/build compiles it; examples/binder_pages.txt is what it prints for a and examples/train_crossing.pair. include/mealbis.h says what the
// calls do.
#[path = "../../bindings/rust/mealbis.rs"]
mod mealbis;
mod pair_file;

use mealbis::{page, page_bytes, read, scratch_words, spectrum, spectrum_words, Refused, MOST_FILE_SAMPLES};
use pair_file::{get_file, refuse};
use std::io::Write;
use std::process::exit;

// The pages of all blocks of an abutment, a or b.
fn pages(file: &[u8], abutment: &str) -> Result<Vec<Vec<u8>>, Refused> {
    let (mut a, mut b) = (vec![0; MOST_FILE_SAMPLES], vec![0; MOST_FILE_SAMPLES]);
    let (samples, length) = read(file, &mut a, &mut b)?;
    let recording = &if abutment == "a" { a } else { b }[..samples];
    let (mut cosine, mut sine, mut scratch) = (vec![0; spectrum_words(length)], vec![0; spectrum_words(length)], vec![0; scratch_words(length)]);
    let printed = |block| {
        let mut bytes = vec![0; page_bytes(length)];
        spectrum(recording, block * length, length, u64::MAX, &mut cosine, &mut sine, &mut scratch)?;
        page(&cosine, &sine, length, &mut bytes)?;
        Ok(bytes)
    };
    (0..samples / length).map(printed).collect()
}

// The abutment, the path and the number of a block, of digits alone.
fn read_words() -> Option<(String, String, Option<usize>)> {
    let mut words = std::env::args().skip(1);
    let (abutment, path, block) = (words.next()?, words.next()?, words.next());
    let block = block.map(|word| if word.starts_with('+') { None } else { word.parse().ok() });
    let good = ["a", "b"].contains(&abutment.as_str()) && block != Some(None) && words.next().is_none();
    good.then(|| (abutment, path, block.flatten()))
}

fn main() {
    let Some((abutment, path, block)) = read_words() else {
        eprintln!("usage: binder_pages a|b FILE [BLOCK]");
        exit(2);
    };
    let file = get_file("binder_pages", &path);
    let pages = pages(&file, &abutment).unwrap_or_else(|refused| refuse(refused, &path));
    let chosen = match block {
        None => pages.concat(),
        Some(block) if block < pages.len() => pages[block].clone(),
        Some(block) => {
            eprintln!("binder_pages: {path} has no block {block}");
            exit(2);
        }
    };
    let mut output = std::io::stdout();
    exit(if output.write_all(&chosen).and_then(|_| output.flush()).is_ok() { 0 } else { 2 });
}
