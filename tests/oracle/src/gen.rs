//! Seeded input for the comparison: texts, word lists, variables, whole jobs, boundary jobs,
//! damaged jobs, and the count of what they reach.
//!
//! All of it is determined by the seed. The module compiles under editions 2015 and 2021.

mod bad;
mod bounds;
mod commands;
mod cover;
mod damage;
mod design;
mod job;
mod limits;
mod walks;
mod words;
mod worst;

pub use self::cover::Coverage;
pub use self::damage::{damage, one_byte_changes};
pub use self::job::job;
pub use self::words::{all_texts, text, vars, word_list};
pub use self::worst::worst_jobs;

/// A job with its name and the answer due: number and place.
pub type Case = (String, Vec<u8>, u32, u32);

/// Jobs at each limit of document 01 and malformed jobs, with number and place.
///
/// The numbers hold for four text buffers of 65,536 bytes. Two kinds of cases need care:
/// names beginning with `runaway` make the Rust run for ever (cut it off or leave it out), and
/// names ending in `(glue over 65,536)` answer 14 with these buffers and 0 with larger ones.
pub fn boundary_jobs() -> Vec<Case> {
    let mut all = Vec::new();
    bounds::cases(&mut all);
    limits::cases(&mut all);
    walks::cases(&mut all);
    bad::cases(&mut all);
    all
}

/// A small deterministic source of choices (splitmix64).
pub struct Rng {
    state: u64,
}

impl Rng {
    pub fn new(seed: u64) -> Rng {
        Rng { state: seed }
    }

    /// The next 64 bits.
    pub fn bits(&mut self) -> u64 {
        self.state = self.state.wrapping_add(0x9e37_79b9_7f4a_7c15);
        let mut z = self.state;
        z = (z ^ (z >> 30)).wrapping_mul(0xbf58_476d_1ce4_e5b9);
        z = (z ^ (z >> 27)).wrapping_mul(0x94d0_49bb_1331_11eb);
        z ^ (z >> 31)
    }

    /// A number below `n`; 0 for `n` 0.
    pub fn below(&mut self, n: usize) -> usize {
        if n == 0 {
            return 0;
        }
        (self.bits() % n as u64) as usize
    }

    /// True in `p` of `q` cases.
    pub fn chance(&mut self, p: usize, q: usize) -> bool {
        self.below(q) < p
    }

    /// One of `from`, which must not be empty.
    pub fn pick<'a, T>(&mut self, from: &'a [T]) -> &'a T {
        &from[self.below(from.len())]
    }

    /// `low` to `high`, both included.
    pub fn range(&mut self, low: usize, high: usize) -> usize {
        low + self.below(high - low + 1)
    }

    /// Puts the entries into a random order.
    pub fn shuffle<T>(&mut self, of: &mut [T]) {
        for i in (1..of.len()).rev() {
            let j = self.below(i + 1);
            of.swap(i, j);
        }
    }
}
