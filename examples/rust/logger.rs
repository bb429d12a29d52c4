// A logger's turn in Rust: reads a pair file, takes the spectrum of one block of a, stores its cosine block and brings the strain back, and takes the pair
// spectrum of the first block of a and b; then three refusals.
// Run it at the top of the repository. examples/build compiles it and examples/logger.txt is what it prints; include/mealbis.h says what each call does.
#[path = "../../bindings/rust/mealbis.rs"]
mod mealbis;

use mealbis::{cosine, counts, inverse_dct, pair, read, reason, scratch_words, spectrum, Answer, Refused, MOST_FILE_SAMPLES};
use std::process::exit;

fn print_rows(heading: &str, first: &[i32], second: &[i32], rows: std::ops::Range<usize>) {
    println!("{heading}");
    for k in rows {
        println!("{k} {} {}", first[k], second[k]);
    }
}

fn print_spent(answer: &Answer) {
    println!("spent {} products and {} sums; largest rest {}", answer.products, answer.sums, answer.largest_rest);
}

fn main() {
    // the recordings of the two abutments
    let Ok(file) = std::fs::read("examples/train_crossing.pair") else {
        exit(2);
    };
    let (mut a, mut b) = (vec![0; MOST_FILE_SAMPLES], vec![0; MOST_FILE_SAMPLES]);
    let (samples, length) = match read(&file, &mut a, &mut b) {
        Ok(sizes) => sizes,
        Err(Refused(number, _)) => {
            println!("refused {number}: {}", reason(number));
            exit(1);
        }
    };
    println!("read {samples} samples of each abutment, in blocks of {length}");
    let (a, b) = (&mut a[..samples], &b[..samples]);
    let (mut first, mut second, mut scratch) = (vec![0; length], vec![0; length], vec![0; scratch_words(length)]);

    // what a block of this length costs
    let Ok(costs) = counts(length) else {
        exit(1);
    };
    print!("a block costs, in products and sums: Cosine {} {}, ", costs.dct_products, costs.dct_sums);
    println!("Spectrum {} {}, Pair {} {}", costs.spectrum_products, costs.spectrum_sums, costs.pair_products, costs.pair_sums);

    // the second block of a, with just its allowance
    if let Ok(answer) = spectrum(a, length, length, costs.spectrum_products, &mut first, &mut second, &mut scratch) {
        print_rows("Spectrum of a, block 1: k cosine sine", &first, &second, 29..32);
        print_spent(&answer);
    }

    // the same block stored as its cosine coefficients, and the strain back from these
    if cosine(a, length, length, costs.dct_products, &mut first, &mut scratch).and_then(|_| inverse_dct(&first, length, &mut second)).is_ok() {
        let furthest = a[length..2 * length].iter().zip(&second).map(|(x, value)| x.abs_diff(*value)).max().unwrap();
        print_rows("Cosine of a, block 1, stored and brought back: i coefficient value", &first, &second, 0..3);
        println!("largest distance from a sample: {furthest}, the limit is {length}");
    }
    first[7] = -1_000_001 * length as i32 - 1;
    if let Err(Refused(number, place)) = inverse_dct(&first, length, &mut second) {
        println!("a coefficient beyond its limit: refused {number}, at place {place}");
    }

    // the first block of both
    if let Ok(answer) = pair(a, b, 0, length, costs.pair_products, &mut first, &mut second, &mut scratch) {
        print_rows("Pair of a and b, block 0: k real imaginary", &first, &second, 0..3);
        print_spent(&answer);
    }

    // refusals: the results stay as they are
    if let Err(Refused(number, _)) = spectrum(a, 0, length, costs.spectrum_products - 1, &mut first, &mut second, &mut scratch) {
        println!("one product less allowed: refused {number}");
    }
    a[300] = 1_000_001;
    if let Err(Refused(number, place)) = spectrum(a, length, length, costs.spectrum_products, &mut first, &mut second, &mut scratch) {
        println!("a sample too large: refused {number}, at place {place}");
    }
    print_rows("still Pair's: k real imaginary", &first, &second, 0..1);
}
