// Sorts the blocks of a pair file in Rust: marks each block of a and of b by a flat limit and a clip level, and prints the numbers of the blocks by
// mark.
//     sort_blocks FILE FLAT_LIMIT CLIP_LEVEL
// Exit status: 0 the blocks are sorted; 1 the library refuses the file or the figures; 2 the file could not be read, the output not be written, or
// the arguments are wrong. A file without a block asks nothing of the figures.
// examples/build compiles it; examples/sort_blocks.txt is what it prints for examples/train_crossing.pair, 20000 and 6000. include/mealbis.h says
// what the calls do.
#[path = "../../bindings/rust/mealbis.rs"]
mod mealbis;
mod pair_file;

use mealbis::{mark, read, scratch_words, spectrum_words, Figures, Refused, CLIPPED, FLAT, PLAIN, MOST_FILE_SAMPLES};
use pair_file::{get_file, refuse};
use std::io::Write;
use std::process::exit;

const MARKS: [(&str, u64); 3] = [("flat", FLAT), ("clipped", CLIPPED), ("plain", PLAIN)];

// The marks of all blocks of a recording.
fn mark_blocks(recording: &[i32], length: usize, figures: Figures) -> Result<Vec<u64>, Refused> {
    let (mut cosine, mut sine, mut scratch) = (vec![0; spectrum_words(length)], vec![0; spectrum_words(length)], vec![0; scratch_words(length)]);
    let starts = (0..recording.len() / length).map(|block| block * length);
    starts.map(|start| mark(recording, start, length, u64::MAX, figures, &mut cosine, &mut sine, &mut scratch).map(|answer| answer.mark)).collect()
}

// A line for each mark and recording, with the blocks that have this mark.
fn sorted(file: &[u8], figures: Figures) -> Result<String, Refused> {
    let (mut a, mut b) = (vec![0; MOST_FILE_SAMPLES], vec![0; MOST_FILE_SAMPLES]);
    let (samples, length) = read(file, &mut a, &mut b)?;
    let recordings = [("a", mark_blocks(&a[..samples], length, figures)?), ("b", mark_blocks(&b[..samples], length, figures)?)];
    let mut lines = String::from("mark recording blocks\n");
    for (name, mark) in MARKS {
        for (recording, marks) in &recordings {
            let blocks: Vec<String> = (0..marks.len()).filter(|&block| marks[block] == mark).map(|block| block.to_string()).collect();
            let shown = if blocks.is_empty() { "none".to_string() } else { blocks.join(" ") };
            lines += &format!("{name} {recording} {shown}\n");
        }
    }
    Ok(lines)
}

// The path and the figures.
fn read_words() -> Option<(String, Figures)> {
    let words: Vec<String> = std::env::args().skip(1).collect();
    let [path, flat_limit, clip_level] = words.try_into().ok()?;
    Some((path, Figures { flat_limit: flat_limit.parse().ok()?, clip_level: clip_level.parse().ok()? }))
}

fn main() {
    let Some((path, figures)) = read_words() else {
        eprintln!("usage: sort_blocks FILE FLAT_LIMIT CLIP_LEVEL");
        exit(2);
    };
    let file = get_file("sort_blocks", &path);
    let lines = sorted(&file, figures).unwrap_or_else(|refused| refuse(refused, &path));
    exit(if std::io::stdout().write_all(lines.as_bytes()).is_ok() { 0 } else { 2 });
}
