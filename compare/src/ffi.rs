//! Our library through the wrapper of its C boundary. The lent memory lies between guard words,
//! and what a call may not touch is looked at afterwards.

use crate::words::*;

const GUARD: usize = 8;

/// Lent words between two guards. Before a call each word holds a pattern of its place: as a float, not a number.
#[derive(Default)]
pub struct Lent {
    words: Vec<u64>,
    len: usize,
    salt: u64,
}

impl Lent {
    pub fn prepare(&mut self, len: usize, salt: u64) {
        self.len = len;
        self.salt = salt & 0x8000_0fff_ffff_ffff;
        let whole = len + 2 * GUARD;
        if self.words.len() < whole {
            self.words.resize(whole, 0);
        }
        let base = 0x7ff7_0000_0000_0000 ^ self.salt;
        for (k, word) in self.words[..whole].iter_mut().enumerate() {
            *word = base ^ k as u64;
        }
    }

    pub fn get(&self) -> &[u64] {
        &self.words[GUARD..GUARD + self.len]
    }

    pub fn get_mut(&mut self) -> &mut [u64] {
        &mut self.words[GUARD..GUARD + self.len]
    }

    /// The first place at or behind `from` that no longer holds its pattern, guards included.
    pub fn changed(&self, from: usize) -> Option<String> {
        let (before, rest) = self.words[..self.len + 2 * GUARD].split_at(GUARD);
        let base = 0x7ff7_0000_0000_0000 ^ self.salt;
        if before.iter().enumerate().any(|(k, w)| *w != base ^ k as u64) {
            return Some("a word before the slice".to_string());
        }
        let at = GUARD + from;
        let k = rest[from..].iter().enumerate().position(|(k, w)| *w != base ^ (at + k) as u64)?;
        let place = from + k;
        Some(if place < self.len { format!("word {place} of {}", self.len) } else { "a word behind the slice".to_string() })
    }

    /// The first of the `count` first words that is not a zero of either sign.
    pub fn not_zero(&self, count: usize) -> Option<usize> {
        self.get()[..count].iter().position(|w| *w << 1 != 0)
    }
}

/// The four lent slices of a call.
#[derive(Default)]
pub struct Memory {
    pub times: Lent,
    pub places: Lent,
    pub row: Lent,
    pub report: Lent,
}

impl Memory {
    pub fn prepare(&mut self, n: Lengths, salt: u64) {
        self.times.prepare(n.times, salt);
        self.places.prepare(n.places, salt.rotate_left(7));
        self.row.prepare(n.row, salt.rotate_left(14));
        self.report.prepare(n.report, salt.rotate_left(21));
    }

    /// Times, places, row and report as a call takes them.
    pub fn lent(&mut self) -> (&mut [f64], &mut [u64], &mut [u64], &mut [u64]) {
        let times = self.times.get_mut();
        // SAFETY: the words of a live slice, read as floats of the same size and alignment.
        let times = unsafe { std::slice::from_raw_parts_mut(times.as_mut_ptr().cast::<f64>(), times.len()) };
        (times, self.places.get_mut(), self.row.get_mut(), self.report.get_mut())
    }
}

/// A library's replay: recording, profile and lent slices to the answer word.
pub type Call = fn(&[u8], &[u64], &mut Memory) -> u64;

/// One call of our replay.
pub fn replay(bytes: &[u8], profile: &[u64], m: &mut Memory) -> u64 {
    let (times, places, row, report) = m.lent();
    let a = tstd::replay_words(bytes, profile, times, places, row, report);
    u64::from(a.number) | u64::from(a.pid) << 8 | a.place << 24
}
