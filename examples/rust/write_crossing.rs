// Writes a pair file in Rust: the strain at the two abutments of a road bridge as a car crosses it, 16 samples of each in blocks of 8.
//     write_crossing [FILE]        standard output where there is no FILE
// Exit status: 0 the file is written; 1 the library refuses the recordings; 2 the file could not be written, or the arguments are wrong.
// examples/build compiles it; examples/write_crossing.txt is what ./pairspec prints of its file. include/mealbis.h says what the call does.
#[path = "../../bindings/rust/mealbis.rs"]
mod mealbis;

use mealbis::{file_bytes, reason, write, Refused};
use std::io::Write;
use std::process::exit;

// In hundredths of a microstrain, 8 samples a second: the car rolls onto the bridge at the near abutment, off it at the far one, and the deck rings on.
const NEAR_ABUTMENT: [i32; 16] = [0, 12, 240, 1310, 2650, 1920, 780, 150, -60, 40, -25, 15, -8, 5, -3, 1];
const FAR_ABUTMENT: [i32; 16] = [0, -4, 10, 95, 520, 1480, 2480, 1730, 610, 70, -45, 30, -18, 10, -6, 3];
const BLOCK: usize = 8;

// to the file at this path, or to standard output where there is none
fn put(path: Option<&String>, file: &[u8]) -> std::io::Result<()> {
    match path {
        Some(path) => std::fs::write(path, file),
        None => std::io::stdout().write_all(file).and_then(|_| std::io::stdout().flush()),
    }
}

fn main() {
    let words: Vec<String> = std::env::args().collect();
    if words.len() > 2 {
        eprintln!("usage: write_crossing [FILE]");
        exit(2);
    }
    let mut file = [0; file_bytes(NEAR_ABUTMENT.len())];
    let bytes = match write(&NEAR_ABUTMENT, &FAR_ABUTMENT, BLOCK, &mut file) {
        Ok(bytes) => bytes,
        Err(Refused(number, place)) => {
            eprintln!("refused {number}: {}, place {place}", reason(number));
            exit(1);
        }
    };
    if let Err(error) = put(words.get(1), &file[..bytes]) {
        eprintln!("write_crossing: {error}");
        exit(2);
    }
}
