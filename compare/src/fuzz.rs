//! Random cases, each with its own seed, compared until the first difference; a failing case is saved as a pair of
//! files that `compare one` replays.

use crate::expect::{self, Expected};
use crate::ffi::Memory;
use crate::generate::{self, Case, Flavour};
use crate::rng::Rng;
use crate::rules;
use crate::tally::Tally;
use crate::words::*;
use std::fs;
use std::time::{Duration, Instant};

/// A line of progress now and then on long runs.
pub struct Progress {
    name: &'static str,
    total: u64,
    start: Instant,
    shown: Instant,
}

impl Progress {
    pub fn new(name: &'static str, total: u64) -> Self {
        Progress { name, total, start: Instant::now(), shown: Instant::now() }
    }

    pub fn at(&mut self, done: u64) {
        if done % 64 == 0 && self.shown.elapsed() > Duration::from_secs(10) {
            self.shown = Instant::now();
            let seconds = self.start.elapsed().as_secs_f64();
            eprintln!("  {}: {done} of {}, {:.0} a second", self.name, self.total, done as f64 / seconds);
        }
    }

    pub fn seconds(&self) -> f64 {
        self.start.elapsed().as_secs_f64()
    }
}

/// Saves a case under failures/ and says so.
pub fn save(name: &str, words: &[u64], bytes: &[u8]) -> String {
    let base = format!("failures/{name}");
    let saved = fs::create_dir_all("failures")
        .and_then(|()| fs::write(format!("{base}.profile"), words_text(words)))
        .and_then(|()| fs::write(format!("{base}.ts"), bytes));
    match saved {
        Ok(()) => format!("saved; replay by: compare one {base}.profile {base}.ts"),
        Err(e) => format!("not saved under {base}: {e}"),
    }
}

/// One case whole: expectation, call, comparison. The lent slices are at times longer than needed.
pub fn compare(case: &Case, seed: u64, m: &mut Memory) -> Result<Expected, String> {
    let lent = lengths(&case.words, seed);
    let want = expect::expected(&case.bytes, &case.words, lent)?;
    expect::check(&case.bytes, &case.words, lent, seed, m, &want)?;
    Ok(want)
}

fn lengths(words: &[u64], seed: u64) -> Lengths {
    let more = |shift: u32, most: u64| ((seed >> shift) % 3 * (seed >> (shift + 2)) % (most + 1)) as usize;
    match rules::profile(words) {
        Some(p) => {
            let n = Lengths::exact(p.needed());
            Lengths { times: n.times + more(3, 40), places: n.places + more(7, 9), row: n.row + more(11, 20), ..n }
        }
        None => Lengths { times: 64, places: 16, row: 54, report: REPORT_WORDS },
    }
}

/// The case of a seed: one in 2,048 is the one with all keys.
pub fn from_seed(seed: u64, case: &mut Case) {
    let mut rng = Rng::new(seed);
    if rng.one_in(2_048) {
        generate::all_keys(&mut rng, case);
    } else {
        let flavour = if rng.one_in(12) { Flavour::TinyQueues } else { Flavour::Mixed };
        generate::case(&mut rng, flavour, case);
    }
}

pub fn run(seed: u64, count: u64, whole: bool) -> Result<(), String> {
    println!("fuzz: seeds {seed} to {}", seed.wrapping_add(count - 1));
    let mut tally = Tally::default();
    let mut m = Memory::default();
    let mut case = Case::default();
    let mut progress = Progress::new("fuzz", count);
    for k in 0..count {
        let seed = seed.wrapping_add(k);
        from_seed(seed, &mut case);
        match compare(&case, seed, &mut m) {
            Ok(want) => tally.add(&case.words, case.bytes.len(), &want),
            Err(e) => {
                let saved = save(&format!("fuzz_{seed}"), &case.words, &case.bytes);
                return Err(format!("fuzz, seed {seed}: {e}\n  {saved}\n  again by: compare fuzz --part --count 1 --seed {seed}"));
            }
        }
        progress.at(k);
    }
    tally.show("fuzz");
    println!("  {:.1} s, {:.0} cases a second", progress.seconds(), count as f64 / progress.seconds());
    let missing = tally.missing();
    if whole && !missing.is_empty() {
        return Err(format!("fuzz: no difference, but these were not met: {}", missing.join(", ")));
    }
    Ok(())
}

/// A saved pair, or a stream with its profile.
pub fn one(profile: &str, recording: &str) -> Result<(), String> {
    let text = fs::read_to_string(profile).map_err(|e| format!("{profile}: {e}"))?;
    let bytes = fs::read(recording).map_err(|e| format!("{recording}: {e}"))?;
    let case = Case { words: read_profile(&text)?, bytes };
    let want = compare(&case, 0, &mut Memory::default())?;
    println!("{}", answer_text(want.answer));
    if want.answer == 0 {
        print!("{}", crate::figures::lines(&want));
    }
    println!("same");
    Ok(())
}
