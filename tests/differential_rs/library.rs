// Memory that is lent to the library's functions, with guards on both sides. bindings/rust/mealbis.rs declares the functions; a record and a
// month are lent as their words, in the header's order.
use crate::mealbis::Size;
use crate::random::Random;

// ---- lent memory

const GUARD: usize = 16;

pub trait Word: Copy + PartialEq + std::fmt::Display {
    // a word to recognise, never 0
    fn filling(i: u64) -> Self;
}

fn mixed(i: u64) -> u64 {
    (i + 1).wrapping_mul(0x9e37_79b9_7f4a_7c15) | 1
}

impl Word for i64 {
    fn filling(i: u64) -> i64 {
        mixed(i) as i64
    }
}

impl Word for u64 {
    fn filling(i: u64) -> u64 {
        mixed(i)
    }
}

impl Word for i32 {
    fn filling(i: u64) -> i32 {
        (mixed(i) >> 32) as i32 | 1
    }
}

impl Word for u8 {
    fn filling(i: u64) -> u8 {
        (mixed(i) >> 56) as u8 | 1
    }
}

// Words to lend, between two guards. `expected` is the same memory as it should be after the call.
pub struct Lent<T> {
    name: &'static str,
    memory: Vec<T>,
    expected: Vec<T>,
    first: usize,
    len: usize,
}

impl<T: Word> Lent<T> {
    // The guard in front has a random length, so that the words begin at any alignment that their type allows.
    pub fn filled(name: &'static str, len: usize, random: &mut Random) -> Lent<T> {
        let first = GUARD + random.below(8);
        let salt = random.next() >> 8;
        let memory: Vec<T> = (0..first + len + GUARD).map(|i| T::filling(salt + i as u64)).collect();
        Lent { name, expected: memory.clone(), memory, first, len }
    }

    pub fn holding(name: &'static str, values: &[T], random: &mut Random) -> Lent<T> {
        let mut lent = Lent::filled(name, values.len(), random);
        lent.expect(values);
        lent.memory = lent.expected.clone();
        lent
    }

    pub fn pointer(&mut self) -> *mut T {
        self.memory[self.first..].as_mut_ptr()
    }

    // the arguments by which it is lent
    pub fn given(&mut self) -> (*mut T, Size) {
        (self.pointer(), self.len as Size)
    }

    // These words should stand in front after the call, and every other word be as it is.
    pub fn expect(&mut self, values: &[T]) {
        self.expected[self.first..self.first + values.len()].copy_from_slice(values);
    }

    // what stands in the lent words now
    pub fn words(&self) -> &[T] {
        &self.memory[self.first..self.first + self.len]
    }

    // the first word that is not as expected, guards too
    pub fn difference(&self) -> Option<String> {
        if self.memory == self.expected {
            return None;
        }
        let i = (0..self.memory.len()).find(|&i| self.memory[i] != self.expected[i])?;
        let place = i as i64 - self.first as i64;
        Some(format!("word {} of {} ({} words lent) is {} and not {}", place, self.name, self.len, self.memory[i], self.expected[i]))
    }
}

// A record, in whose words these values should stand after the call.
pub fn record<T: Word>(name: &'static str, values: &[T], random: &mut Random) -> Lent<T> {
    let mut lent = Lent::filled(name, values.len(), random);
    lent.expect(values);
    lent
}

// the differences of several pieces of lent memory
pub fn differences(found: &[Option<String>]) -> Vec<String> {
    found.iter().flatten().cloned().collect()
}
