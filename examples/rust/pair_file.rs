// What sort_blocks, months and binder_pages have in common: what they say of a pair file that cannot be read or that the library refuses. Each takes
// it by `mod pair_file;` beside `mod mealbis;`. The calls of the library stand in the programs.
use crate::mealbis::{reason, Refused};
use std::process::exit;

// The bytes of the file at this path. Where it cannot be read: says why, and ends with status 2.
pub fn get_file(program: &str, path: &str) -> Vec<u8> {
    std::fs::read(path).unwrap_or_else(|error| {
        eprintln!("{program}: {path}: {error}");
        exit(2);
    })
}

// Says why the library has refused, and for which file, and ends with status 1.
pub fn refuse(Refused(number, place): Refused, path: &str) -> ! {
    let at = if number == 6 { format!(", place {place}") } else { String::new() };
    eprintln!("refused {number}: {path}: {}{at}", reason(number));
    exit(1);
}
