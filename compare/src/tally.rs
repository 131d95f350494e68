//! Counts by outcome: each refusal, each violation kind by the stream slot that it names, and the longest table. At
//! the end they say whether everything that a run must meet was met.

use crate::expect::Expected;
use crate::rules::{PLACES, Queue};
use crate::words::*;

/// Slot 8 is the system chain.
const SLOTS: usize = MAX_STREAMS + 1;

#[derive(Default)]
pub struct Tally {
    pub cases: u64,
    pub numbers: [u64; 11],
    pub queues: [u64; 4],
    pub kinds: [[u64; SLOTS]; 9],
    /// The same for kinds 0, 1 and 7 of video streams alone.
    video: [[u64; SLOTS]; 9],
    pub most_lines: u64,
    pub most_events: u64,
    pub bytes: u64,
    seen: [u64; PLACES.len()],
}

impl Tally {
    pub fn add(&mut self, words: &[u64], bytes: usize, want: &Expected) {
        self.cases += 1;
        self.bytes += bytes as u64;
        self.numbers[want.number() as usize] += 1;
        match want.queue {
            Some(Queue::Unit) => self.queues[0] += 1,
            Some(Queue::Run) => self.queues[1] += 1,
            Some(Queue::Mark) => self.queues[2] += 1,
            Some(Queue::LastUnit) => self.queues[3] += 1,
            None => {}
        }
        if want.answer != 0 {
            return;
        }
        for (n, here) in self.seen.iter_mut().zip(want.seen.0) {
            *n += u64::from(here > 0);
        }
        let lines = want.report[3];
        self.most_lines = self.most_lines.max(lines);
        self.most_events = self.most_events.max(want.report[0]);
        for line in want.report[4..4 + LINE_WORDS * lines as usize].chunks(LINE_WORDS) {
            let streams = words[1] as usize;
            let slot = if line[0] == 8 {
                MAX_STREAMS
            } else {
                (0..streams).find(|k| words[STREAMS_AT + k * STREAM_WORDS] == line[1]).unwrap_or(MAX_STREAMS)
            };
            self.kinds[line[0] as usize][slot] += 1;
            if slot < MAX_STREAMS && words[STREAMS_AT + slot * STREAM_WORDS + 2] == 1 {
                self.video[line[0] as usize][slot] += 1;
            }
        }
    }

    /// Of the 51 keys of eight video streams and the system chain, those that were met.
    pub fn keys(&self) -> usize {
        let mut met = 0;
        for kind in [0, 1, 4, 5, 6, 7] {
            met += self.video[kind][..MAX_STREAMS].iter().filter(|n| **n > 0).count();
        }
        met + [self.kinds[0][8], self.kinds[1][8], self.kinds[8][8]].iter().filter(|n| **n > 0).count()
    }

    /// Of the 40 keys of eight main streams, those that were met.
    pub fn main_keys(&self) -> usize {
        let mut met = 0;
        for kind in [0, 1, 2, 3, 7] {
            met += (0..MAX_STREAMS).filter(|&k| self.kinds[kind][k] > self.video[kind][k]).count();
        }
        met
    }

    pub fn show(&self, name: &str) {
        println!("{name}: {} calls, {} bytes of recordings", self.cases, self.bytes);
        let refusals: Vec<String> = (1..11).map(|n| format!("{n}: {}", self.numbers[n])).collect();
        println!("  accepted {}; refused {}", self.numbers[0], refusals.join(", "));
        if self.numbers[10] > 0 {
            let [unit, run, mark, last] = self.queues;
            println!("  number 10 by a unit {unit}, a run {run}, a header mark {mark}, a unit at the end {last}");
        }
        let kinds: Vec<String> = (0..9).map(|k| format!("{} {}", KINDS[k], self.kinds[k].iter().sum::<u64>())).collect();
        println!("  lines: {}", kinds.join(", "));
        println!(
            "  keys met: {} of 51 with video streams, {} of 40 with main streams; most lines in one report {}, most events {}",
            self.keys(),
            self.main_keys(),
            self.most_lines,
            self.most_events
        );
        let seen: Vec<String> = PLACES.iter().zip(self.seen).map(|(name, n)| format!("{name} {n}")).collect();
        println!("  accepted with: {}", seen.join(", "));
    }

    /// What a whole run of the fuzz must have met and has not.
    pub fn missing(&self) -> Vec<String> {
        let mut missing = Vec::new();
        for n in [0, 4, 5, 6, 7, 8, 9, 10] {
            if self.numbers[n] == 0 {
                missing.push(format!("answer {n}"));
            }
        }
        for (n, name) in ["a unit", "a run", "a header mark", "a unit at the end"].iter().enumerate() {
            if self.queues[n] == 0 {
                missing.push(format!("number 10 by {name}"));
            }
        }
        for k in 0..9 {
            if self.kinds[k].iter().sum::<u64>() == 0 {
                missing.push(format!("kind {}", KINDS[k]));
            }
        }
        for (name, n) in PLACES.iter().zip(self.seen) {
            if n == 0 {
                missing.push(name.to_string());
            }
        }
        if self.keys() < 51 {
            missing.push(format!("{} of the 51 keys", 51 - self.keys()));
        }
        if self.main_keys() < 40 {
            missing.push(format!("{} of the 40 keys of main streams", 40 - self.main_keys()));
        }
        if self.most_lines < 51 {
            missing.push("a report of 51 lines".to_string());
        }
        missing
    }
}
