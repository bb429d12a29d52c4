// The calls of include/mealbis.h for Rust, which says what each does. A program takes this file by
//     #[path = ".../bindings/rust/mealbis.rs"]
//     mod mealbis;
// and is linked with libmealbis.a: rustc -L native=FOLDER. tests/check_declarations.py holds the declarations to the Rattle source.
//
// The functions are safe: a `&mut` slice overlaps nothing, so whatever is passed keeps the header's section "Buffers". A count, a start or a
// length may be any number. What they are built on is in `raw`.
#![allow(dead_code)]

// of the header that these declarations belong to; version() is that of the archive
pub const VERSION: u32 = 40000;

// mealbis_size: 64 bits on every machine
pub type Size = u64;

// The functions as they are exported: pointers and counts, for who keeps the section "Buffers" himself.
pub mod raw {
    use super::*;

    #[link(name = "mealbis", kind = "static")]
    extern "C" {
        pub fn mealbis_version() -> u32;
        pub fn mealbis_spectrum(
            recording: *const i32, recording_words: Size, start: Size, length: Size, allowance: u64,
            cosine: *mut i32, cosine_words: Size, sine: *mut i32, sine_words: Size, scratch: *mut i64, scratch_words: Size, answer: *mut Answer,
        ) -> u32;
        pub fn mealbis_mark(
            recording: *const i32, recording_words: Size, start: Size, length: Size, allowance: u64, flat_limit: i32, clip_level: i32,
            cosine: *mut i32, cosine_words: Size, sine: *mut i32, sine_words: Size, scratch: *mut i64, scratch_words: Size, answer: *mut MarkAnswer,
        ) -> u32;
        pub fn mealbis_month_begin(month: *mut Month, length: Size) -> u32;
        pub fn mealbis_month_add(
            month: *mut Month, party: Size, recording: *const i32, recording_words: Size, start: Size, length: Size, allowance: u64,
            cosine: *mut i32, cosine_words: Size, sine: *mut i32, sine_words: Size, scratch: *mut i64, scratch_words: Size, answer: *mut Answer,
        ) -> u32;
        pub fn mealbis_month_length(month: *const Month) -> Size;
        pub fn mealbis_month_blocks(month: *const Month, party: Size, blocks: *mut Blocks) -> u32;
        pub fn mealbis_month_sums(month: *const Month, party: Size, k: Size, sums: *mut Sums) -> u32;
        pub fn mealbis_page(
            cosine: *const i32, cosine_words: Size, sine: *const i32, sine_words: Size, length: Size, page: *mut u8, page_bytes: Size,
            answer: *mut PageAnswer,
        ) -> u32;
        pub fn mealbis_cosine(
            recording: *const i32, recording_words: Size, start: Size, length: Size, allowance: u64,
            coefficients: *mut i32, coefficients_words: Size, scratch: *mut i64, scratch_words: Size, answer: *mut Answer,
        ) -> u32;
        pub fn mealbis_inverse_dct(
            coefficients: *const i32, coefficients_words: Size, length: Size, values: *mut i32, values_words: Size, answer: *mut InverseAnswer,
        ) -> u32;
        pub fn mealbis_pair(
            a: *const i32, a_words: Size, b: *const i32, b_words: Size, start: Size, length: Size, allowance: u64,
            re: *mut i32, re_words: Size, im: *mut i32, im_words: Size, scratch: *mut i64, scratch_words: Size, answer: *mut Answer,
        ) -> u32;
        pub fn mealbis_counts(length: Size, answer: *mut CountsAnswer) -> u32;
        pub fn mealbis_read(
            file: *const u8, file_bytes: Size, a: *mut i32, a_words: Size, b: *mut i32, b_words: Size, answer: *mut ReadAnswer,
        ) -> u32;
        pub fn mealbis_write(
            a: *const i32, a_words: Size, b: *const i32, b_words: Size, length: Size, file: *mut u8, file_bytes: Size, answer: *mut WriteAnswer,
        ) -> u32;
    }
}

use raw::*;

// ---- sizes

pub const LONGEST_BLOCK: usize = 1024;
pub const MOST_FILE_SAMPLES: usize = 4096;
pub const MOST_BLOCKS: i64 = 50000; // of a party in a month
pub const MONTH_WORDS: usize = 2055;

// The words of a spectrum, of the cosine and of the sine.
pub const fn spectrum_words(length: usize) -> usize {
    length / 2 + 1
}

// The words of scratch that a block of this length needs; of a length beyond all memory, as many as there can be.
pub const fn scratch_words(length: usize) -> usize {
    length.saturating_mul(8).saturating_add(64)
}

// The bytes of a page, and of a pair file; saturated in the same way.
pub const fn page_bytes(length: usize) -> usize {
    (length / 2).saturating_add(2).saturating_mul(31)
}

pub const fn file_bytes(samples: usize) -> usize {
    samples.saturating_mul(8).saturating_add(8)
}

// ---- the header's records

#[repr(C)]
#[derive(Clone, Copy, Debug, Default, PartialEq)]
pub struct Answer {
    pub products: u64,
    pub sums: u64,
    pub largest_rest: u64,
    pub place: u64,
}

#[repr(C)]
#[derive(Clone, Copy, Debug, Default, PartialEq)]
pub struct MarkAnswer {
    pub products: u64,
    pub sums: u64,
    pub largest_rest: u64,
    pub place: u64,
    pub mark: u64,
}

#[repr(C)]
#[derive(Clone, Copy, Debug, Default, PartialEq)]
pub struct Blocks {
    pub blocks: i64,
}

#[repr(C)]
#[derive(Clone, Copy, Debug, Default, PartialEq)]
pub struct Sums {
    pub cosine: i64,
    pub sine: i64,
}

#[repr(C)]
#[derive(Clone, Copy, Debug, Default, PartialEq)]
pub struct CountsAnswer {
    pub dct_products: u64,
    pub dct_sums: u64,
    pub spectrum_products: u64,
    pub spectrum_sums: u64,
    pub pair_products: u64,
    pub pair_sums: u64,
}

#[repr(C)]
#[derive(Clone, Copy, Debug, Default, PartialEq)]
pub struct PageAnswer {
    pub bytes: u64,
}

#[repr(C)]
#[derive(Clone, Copy, Debug, Default, PartialEq)]
pub struct InverseAnswer {
    pub place: u64,
}

#[repr(C)]
#[derive(Clone, Copy, Debug, Default, PartialEq)]
pub struct ReadAnswer {
    pub samples: u64,
    pub length: u64,
    pub place: u64,
}

#[repr(C)]
#[derive(Clone, Copy, Debug, Default, PartialEq)]
pub struct WriteAnswer {
    pub bytes: u64,
    pub place: u64,
}

// A refusal: its number, and the place of refusals 6 and 10, 0 after every other.
#[derive(Clone, Copy, Debug, PartialEq)]
pub struct Refused(pub u32, pub u64);

fn answered<T>(number: u32, answer: T, place: u64) -> Result<T, Refused> {
    if number == 0 {
        Ok(answer)
    } else {
        Err(Refused(number, place))
    }
}

// The number of an answer in words, as mealbis_reason has it.
pub fn reason(number: u32) -> &'static str {
    match number {
        0 => "accepted",
        1 => "the length is none of the eleven",
        2 => "the recording or the coefficients end too soon",
        3 => "a buffer for results is too short",
        4 => "scratch is too short",
        5 => "the allowance is below the products that are spent",
        6 => "a sample is out of range",
        7 => "the file is shorter than 8 bytes",
        8 => "the sample count is 0 or above 4,096",
        9 => "the file is not 8 + 8 * samples bytes long",
        10 => "a stored coefficient is beyond its limit",
        11 => "the two recordings differ in length",
        12 => "the flat limit is negative, or the clip level is outside 1 to 1,000,000",
        13 => "the block's length is not the month's",
        14 => "the party holds 50,000 blocks in the month",
        15 => "the party is neither 1 nor 2",
        16 => "no sum of the month belongs to this k",
        _ => "no call of this version gives this number",
    }
}

// The marks of a block.
pub const FLAT: u64 = 1;
pub const CLIPPED: u64 = 2;
pub const PLAIN: u64 = 3;

// The owner's figures for a mark.
#[derive(Clone, Copy)]
pub struct Figures {
    pub flat_limit: i32,
    pub clip_level: i32,
}

// ---- the calls

// The version of the archive: 10000 major + 100 minor + patch. It is VERSION where these declarations belong to it.
pub fn version() -> u32 {
    unsafe { mealbis_version() }
}

pub fn spectrum(recording: &[i32], start: usize, length: usize, allowance: u64, cosine: &mut [i32], sine: &mut [i32], scratch: &mut [i64]) -> Result<Answer, Refused> {
    let mut answer = Answer::default();
    let number = unsafe {
        mealbis_spectrum(
            recording.as_ptr(), recording.len() as Size, start as Size, length as Size, allowance, cosine.as_mut_ptr(), cosine.len() as Size,
            sine.as_mut_ptr(), sine.len() as Size, scratch.as_mut_ptr(), scratch.len() as Size, &mut answer,
        )
    };
    let place = answer.place;
    answered(number, answer, place)
}

// Spectrum with its mark.
pub fn mark(
    recording: &[i32], start: usize, length: usize, allowance: u64, figures: Figures, cosine: &mut [i32], sine: &mut [i32], scratch: &mut [i64],
) -> Result<MarkAnswer, Refused> {
    let mut answer = MarkAnswer::default();
    let number = unsafe {
        mealbis_mark(
            recording.as_ptr(), recording.len() as Size, start as Size, length as Size, allowance, figures.flat_limit, figures.clip_level,
            cosine.as_mut_ptr(), cosine.len() as Size, sine.as_mut_ptr(), sine.len() as Size, scratch.as_mut_ptr(), scratch.len() as Size, &mut answer,
        )
    };
    let place = answer.place;
    answered(number, answer, place)
}

// The sums of a month, for two owners: the parties 1 and 2. Its words are private, so that beginning and adding alone make a month.
#[repr(C)]
#[derive(Clone)]
pub struct Month {
    words: [i64; MONTH_WORDS],
}

impl Month {
    pub fn begin(length: usize) -> Result<Month, Refused> {
        let mut month = Month { words: [0; MONTH_WORDS] };
        let number = unsafe { mealbis_month_begin(&mut month, length as Size) };
        answered(number, month, 0)
    }

    // Spectrum, with its coefficients added to the party's sums.
    pub fn add(
        &mut self, party: usize, recording: &[i32], start: usize, length: usize, allowance: u64, cosine: &mut [i32], sine: &mut [i32], scratch: &mut [i64],
    ) -> Result<Answer, Refused> {
        let mut answer = Answer::default();
        let number = unsafe {
            mealbis_month_add(
                self, party as Size, recording.as_ptr(), recording.len() as Size, start as Size, length as Size, allowance, cosine.as_mut_ptr(),
                cosine.len() as Size, sine.as_mut_ptr(), sine.len() as Size, scratch.as_mut_ptr(), scratch.len() as Size, &mut answer,
            )
        };
        let place = answer.place;
        answered(number, answer, place)
    }

    pub fn length(&self) -> usize {
        unsafe { mealbis_month_length(self) as usize }
    }

    // How many blocks the party added.
    pub fn blocks(&self, party: usize) -> Result<i64, Refused> {
        let mut told = Blocks::default();
        let number = unsafe { mealbis_month_blocks(self, party as Size, &mut told) };
        answered(number, told.blocks, 0)
    }

    // The party's sums of the cosine and of the sine coefficients for k.
    pub fn sums(&self, party: usize, k: usize) -> Result<Sums, Refused> {
        let mut sums = Sums::default();
        let number = unsafe { mealbis_month_sums(self, party as Size, k as Size, &mut sums) };
        answered(number, sums, 0)
    }
}

// The bytes of the page.
pub fn page(cosine: &[i32], sine: &[i32], length: usize, page: &mut [u8]) -> Result<usize, Refused> {
    let mut answer = PageAnswer::default();
    let number = unsafe {
        mealbis_page(
            cosine.as_ptr(), cosine.len() as Size, sine.as_ptr(), sine.len() as Size, length as Size, page.as_mut_ptr(), page.len() as Size, &mut answer,
        )
    };
    answered(number, answer.bytes as usize, 0)
}

pub fn cosine(recording: &[i32], start: usize, length: usize, allowance: u64, coefficients: &mut [i32], scratch: &mut [i64]) -> Result<Answer, Refused> {
    let mut answer = Answer::default();
    let number = unsafe {
        mealbis_cosine(
            recording.as_ptr(), recording.len() as Size, start as Size, length as Size, allowance, coefficients.as_mut_ptr(), coefficients.len() as Size,
            scratch.as_mut_ptr(), scratch.len() as Size, &mut answer,
        )
    };
    let place = answer.place;
    answered(number, answer, place)
}

pub fn inverse_dct(coefficients: &[i32], length: usize, values: &mut [i32]) -> Result<(), Refused> {
    let mut answer = InverseAnswer::default();
    let number = unsafe {
        mealbis_inverse_dct(
            coefficients.as_ptr(), coefficients.len() as Size, length as Size, values.as_mut_ptr(), values.len() as Size, &mut answer,
        )
    };
    answered(number, (), answer.place)
}

pub fn pair(a: &[i32], b: &[i32], start: usize, length: usize, allowance: u64, real: &mut [i32], imaginary: &mut [i32], scratch: &mut [i64]) -> Result<Answer, Refused> {
    let mut answer = Answer::default();
    let number = unsafe {
        mealbis_pair(
            a.as_ptr(), a.len() as Size, b.as_ptr(), b.len() as Size, start as Size, length as Size, allowance, real.as_mut_ptr(), real.len() as Size,
            imaginary.as_mut_ptr(), imaginary.len() as Size, scratch.as_mut_ptr(), scratch.len() as Size, &mut answer,
        )
    };
    let place = answer.place;
    answered(number, answer, place)
}

pub fn counts(length: usize) -> Result<CountsAnswer, Refused> {
    let mut counts = CountsAnswer::default();
    let number = unsafe { mealbis_counts(length as Size, &mut counts) };
    answered(number, counts, 0)
}

// The sizes m and N.
pub fn read(file: &[u8], a: &mut [i32], b: &mut [i32]) -> Result<(usize, usize), Refused> {
    let mut answer = ReadAnswer::default();
    let number = unsafe {
        mealbis_read(
            file.as_ptr(), file.len() as Size, a.as_mut_ptr(), a.len() as Size, b.as_mut_ptr(), b.len() as Size, &mut answer,
        )
    };
    answered(number, (answer.samples as usize, answer.length as usize), answer.place)
}

// The bytes of the file.
pub fn write(a: &[i32], b: &[i32], length: usize, file: &mut [u8]) -> Result<usize, Refused> {
    let mut answer = WriteAnswer::default();
    let number = unsafe {
        mealbis_write(
            a.as_ptr(), a.len() as Size, b.as_ptr(), b.len() as Size, length as Size, file.as_mut_ptr(), file.len() as Size, &mut answer,
        )
    };
    answered(number, answer.bytes as usize, answer.place)
}
