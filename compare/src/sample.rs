//! Writes a sample of the oracle's answers as data for a program that needs no Rust at hand. README.md has the format:
//! words of 64 bits, little-endian; a recording's bytes are filled up with zeros to whole words.

use crate::expect::{self, Expected};
use crate::ffi::Memory;
use crate::generate::{self, Case, Flavour};
use crate::rng::Rng;
use crate::rules::{self, Verdict};
use crate::streams;
use crate::tally::Tally;
use crate::words::*;
use std::collections::HashMap;
use std::fs;

/// The reading program's memory: no case needs more work than this.
const MOST_TIMES: usize = 16_384;
const MOST_PLACES: usize = 1_024;
const MOST_BYTES: usize = 3_072;

struct Sample {
    cases: Vec<(Case, Expected)>,
    shapes: HashMap<(u64, u64, u64, u64), usize>,
    tally: Tally,
}

impl Sample {
    /// Keeps a case if its shape (answer, kinds, streams, layout) was kept fewer than `most` times.
    fn offer(&mut self, case: &Case, most: usize, m: &mut Memory) -> Result<(), String> {
        let Some(p) = rules::profile(&case.words) else { return Ok(()) };
        let needed = p.needed();
        if needed.times > MOST_TIMES || needed.places > MOST_PLACES {
            return Ok(());
        }
        let lent = Lengths::exact(needed);
        let want = expect::expected(&case.bytes, &case.words, lent)?;
        let lines = &want.report[4..4 + LINE_WORDS * want.report[3] as usize];
        let kinds = lines.chunks(LINE_WORDS).fold(0, |set, l| set | 1 << l[0]);
        let layout = rules::layout(&case.bytes).map_or(0, |g| g.0 as u64);
        let cause = want.queue.map_or(0, |q| q as u64 + 1);
        let shape = (want.number() + 256 * cause, kinds, u64::from(p.streams.len() > 1), layout);
        let kept = self.shapes.entry(shape).or_insert(0);
        if *kept < most {
            *kept += 1;
            expect::check(&case.bytes, &case.words, lent, 1, m, &want)?;
            self.tally.add(&case.words, case.bytes.len(), &want);
            self.cases.push((case.clone(), want));
        }
        Ok(())
    }

    fn file(&self) -> Vec<u8> {
        let mut out: Vec<u64> = vec![self.cases.len() as u64];
        for (case, want) in &self.cases {
            out.push(case.bytes.len() as u64);
            out.extend(case.words);
            for part in case.bytes.chunks(8) {
                let mut word = [0; 8];
                word[..part.len()].copy_from_slice(part);
                out.push(u64::from_le_bytes(word));
            }
            out.push(want.answer);
            if want.answer == 0 {
                out.extend(&want.report[..4 + LINE_WORDS * want.report[3] as usize]);
                out.extend(&want.row);
            }
        }
        out.iter().flat_map(|w| w.to_le_bytes()).collect()
    }
}

/// Where a real stream has two PCRs closest: from the one to the other, and on to 14 packets.
fn nearest_clocks(bytes: &[u8], pcr_pid: u16) -> Option<&[u8]> {
    let grid = rules::layout(bytes)?;
    let clock = |w: &[u8]| rules::parse(w).is_some_and(|p| p.pid == pcr_pid && p.pcr.is_some());
    let at: Vec<usize> = rules::windows(bytes, grid).enumerate().filter(|(_, w)| clock(w)).map(|(k, _)| k).collect();
    let pair = at.windows(2).min_by_key(|w| w[1] - w[0])?;
    let end = (pair[1] + 1).max(pair[0] + 14).min(bytes.len() / grid.0);
    Some(&bytes[pair[0] * grid.0..end * grid.0])
}

/// A part of each real stream with its own profile, and less depth.
fn parts(sample: &mut Sample, m: &mut Memory) -> Result<usize, String> {
    let Ok(list) = streams::all() else { return Ok(0) };
    for real in list {
        let profile = Profile { queue_depth: 64, clock_depth: 64, ..real.profile.clone() };
        if let Some(bytes) = nearest_clocks(&real.bytes, profile.pcr_pid).filter(|b| b.len() < 4 * MOST_BYTES) {
            sample.offer(&Case { words: profile.words(), bytes: bytes.to_vec() }, usize::MAX, m)?;
        }
    }
    Ok(sample.cases.len())
}

fn verdict(words: &[u64], bytes: &[u8]) -> Option<Verdict> {
    let lent = Lengths::exact(rules::profile(words)?.needed());
    Some(rules::judge(words, lent, bytes))
}

pub fn run(path: &str, seed: u64, count: usize) -> Result<(), String> {
    let m = &mut Memory::default();
    let mut sample = Sample { cases: Vec::new(), shapes: HashMap::new(), tally: Tally::default() };
    let real = parts(&mut sample, m)?;
    let mut case = Case::default();
    generate::all_keys(&mut Rng::new(seed), &mut case);
    sample.offer(&case, 1, m)?;
    let mut k = 0;
    while sample.tally.queues.contains(&0) && k < 1_000_000 {
        k += 1;
        generate::case(&mut Rng::new(seed.wrapping_add(k)), Flavour::TinyQueues, &mut case);
        let full = |w: &[u64]| matches!(verdict(w, &case.bytes), Some(Verdict::Refused { queue: Some(q), .. }) if sample.tally.queues[q as usize] == 0);
        if case.bytes.len() <= MOST_BYTES && full(&case.words) {
            sample.offer(&case, 2, m)?;
        }
    }
    for (flavour, share) in [(Flavour::Small, 10), (Flavour::TinyQueues, 1), (Flavour::Mixed, 4)] {
        let until = sample.cases.len() + (count.saturating_sub(real + 1)) * share / 15;
        while sample.cases.len() < until && k < 4_000_000 {
            k += 1;
            let mut rng = Rng::new(seed.wrapping_add(k));
            generate::case(&mut rng, flavour, &mut case);
            if case.bytes.len() <= MOST_BYTES {
                sample.offer(&case, 2, m)?;
            }
        }
    }
    let file = sample.file();
    sample.tally.show("sample");
    println!("  {real} parts of real streams; {} cases, {} bytes in {path}", sample.cases.len(), file.len());
    let t = &sample.tally;
    if [0, 4, 5, 6, 7, 8, 9, 10].iter().any(|n| t.numbers[*n] == 0) || t.kinds.iter().any(|k| k.iter().sum::<u64>() == 0) {
        return Err("sample: an answer or a kind is not in it".to_string());
    }
    fs::write(path, file).map_err(|e| format!("{path}: {e}"))
}
