//! Pairs of recordings that differ only in content must get one answer: number, place and PID, and if accepted the
//! whole report and the row's first records. The marking of content is this tool's own (content.rs).

use crate::content;
use crate::ffi::{self, Memory};
use crate::fuzz::{self, Progress, save};
use crate::generate::Case;
use crate::rng::Rng;
use crate::rules;
use crate::rust;
use crate::streams;
use crate::words::*;

type Outcome = (u64, Vec<u64>, Vec<u64>);

fn ours(bytes: &[u8], words: &[u64], lent: Lengths, row: usize, salt: u64, m: &mut Memory) -> Outcome {
    m.prepare(lent, salt);
    let answer = ffi::replay(bytes, words, m);
    if answer != 0 {
        return (answer, Vec::new(), Vec::new());
    }
    level_report(m.report.get_mut());
    let chains = &mut m.row.get_mut()[..row * CHAIN_WORDS];
    chains.chunks_mut(CHAIN_WORDS).for_each(level_chain);
    let chains = chains.to_vec();
    (0, m.report.get().to_vec(), chains)
}

/// New content; hands back how many bytes are content.
fn change(bytes: &mut [u8], content: &[bool], rng: &mut Rng) -> usize {
    let way = rng.below(5);
    let only = rng.below(bytes.len() as u64) as usize;
    let mut count = 0;
    for (k, byte) in bytes.iter_mut().enumerate() {
        if content[k] {
            count += 1;
            match way {
                0 => *byte = 0,
                1 => *byte = 0x47,
                2 if k >= only => *byte ^= 0xff,
                2 => {}
                _ => *byte = rng.byte(),
            }
        }
    }
    count
}

/// Compares a case with a copy whose content is other. True if both have one layout, so that the pair counts.
pub fn pair(case: &Case, rng: &mut Rng, m: &mut Memory) -> Result<(bool, usize, u64), String> {
    let Some(p) = rules::profile(&case.words) else { return Err("a profile outside the limits".to_string()) };
    let Some(content) = content::mask(&case.bytes, &p) else { return Ok((false, 0, 0)) };
    let mut other = case.bytes.clone();
    let count = change(&mut other, &content, rng);
    if rules::layout(&other) != rules::layout(&case.bytes) {
        return Ok((false, count, 0));
    }
    if content::mask(&other, &p).as_ref() != Some(&content) {
        return Err(format!("the second recording marks other content\n  {}", save("blind_mark", &case.words, &other)));
    }
    let needed = p.needed();
    let lent = Lengths::exact(needed);
    let a = ours(&case.bytes, &case.words, lent, needed.row, rng.next(), m);
    let b = ours(&other, &case.words, lent, needed.row, rng.next(), m);
    if a != b {
        let (first, second) = (save("blind_a", &case.words, &case.bytes), save("blind_b", &case.words, &other));
        return Err(format!("{} and {}, or their figures, differ\n  {first}\n  {second}", answer_text(a.0), answer_text(b.0)));
    }
    if a.0 == 0
        && let rust::Answer::Report { report, row } = rust::replay(&other, &rust::config(&p))
        && (report[..] != b.1[..] || row != b.2)
    {
        return Err(format!("the Rust differs on the second\n  {}", save("blind_rust", &case.words, &other)));
    }
    Ok((true, count, a.0 % 256))
}

/// Parts of real streams, each with other content.
fn real(seed: u64, count: u64, m: &mut Memory) -> Result<(), String> {
    let list = streams::all().unwrap_or_default();
    if list.is_empty() {
        println!("  no real streams here");
        return Ok(());
    }
    let mut alike = 0;
    for k in 0..count {
        let mut rng = Rng::new(seed.wrapping_add(k) ^ 0x4ea1);
        let real = &list[rng.below(list.len() as u64) as usize];
        let profile = Profile { queue_depth: 600, clock_depth: 600, ..real.profile.clone() };
        let case = Case { words: profile.words(), bytes: streams::part(real, &mut rng).to_vec() };
        let (counts, ..) = pair(&case, &mut rng, m).map_err(|e| format!("blind, {}, seed {}: {e}", real.name, seed.wrapping_add(k)))?;
        alike += u64::from(counts);
    }
    println!("  {alike} of {count} pairs made of real streams alike, the others with another layout");
    Ok(())
}

pub fn run(seed: u64, count: u64) -> Result<(), String> {
    println!("blind: seeds {seed} to {}", seed.wrapping_add(count - 1));
    let mut m = Memory::default();
    let mut case = Case::default();
    let mut numbers = [0u64; 11];
    let (mut other_layout, mut content) = (0u64, 0u64);
    let mut progress = Progress::new("blind", count);
    for k in 0..count {
        let seed = seed.wrapping_add(k);
        fuzz::from_seed(seed, &mut case);
        let mut rng = Rng::new(seed ^ 0xb11d);
        match pair(&case, &mut rng, &mut m).map_err(|e| format!("blind, seed {seed}: {e}"))? {
            (true, bytes, number) => {
                numbers[number as usize] += 1;
                content += bytes as u64;
            }
            (false, ..) => other_layout += 1,
        }
        progress.at(k);
    }
    println!(
        "  {} pairs alike, {content} bytes of content; accepted {}, refused {:?} by number 1 to 10",
        count - other_layout,
        numbers[0],
        &numbers[1..]
    );
    println!("  {other_layout} left out: no layout, or another one found in the second");
    real(seed, count / 100, &mut m)?;
    if [0, 5, 6, 7, 8, 9, 10].iter().any(|n| numbers[*n] == 0) && count >= 10_000 {
        return Err("blind: an answer was never met".to_string());
    }
    Ok(())
}
