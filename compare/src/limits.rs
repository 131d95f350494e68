//! The added refusals against the second reading of the rules: every word of the profile at its limits, lent slices
//! one short, recordings one too long, clocks at the limits of number 8 and 9, queues at the depth that just fits.

use crate::expect;
use crate::ffi::Memory;
use crate::fuzz::{Progress, save};
use crate::generate::{self, Case, Flavour, head, pcr_packet};
use crate::rng::Rng;
use crate::rules::{self, Verdict};
use crate::tally::Tally;
use crate::words::*;

struct Run {
    m: Memory,
    tally: Tally,
    salt: u64,
}

impl Run {
    /// One call with these lengths, held to the rules and the Rust; hands back the number.
    fn call(&mut self, what: &str, bytes: &[u8], words: &[u64], lent: Lengths) -> Result<u64, String> {
        self.salt = self.salt.wrapping_mul(0x2545_f491_4f6c_dd1d).wrapping_add(1);
        let judged = expect::expected(bytes, words, lent)
            .and_then(|want| expect::check(bytes, words, lent, self.salt, &mut self.m, &want).map(|()| want));
        match judged {
            Ok(want) => {
                self.tally.add(words, bytes.len(), &want);
                Ok(want.number())
            }
            Err(e) => Err(format!("limits, {what}, {lent:?}, {} words: {e}\n  {}", words.len(), save("limits", words, bytes))),
        }
    }

    fn wanted(&mut self, what: &str, bytes: &[u8], words: &[u64], lent: Lengths, number: u64) -> Result<(), String> {
        let got = self.call(what, bytes, words, lent)?;
        if got == number { Ok(()) } else { Err(format!("limits, {what}: number {got}, this test wants {number}")) }
    }
}

fn fits(words: &[u64]) -> Option<Lengths> {
    rules::profile(words).map(|p| Lengths::exact(p.needed()))
}

/// Accepted cases with each number of streams, with and without system PIDs.
fn accepted(seed: u64) -> Vec<Case> {
    let mut found: Vec<Case> = Vec::new();
    let mut case = Case::default();
    for k in 0..200_000 {
        let mut rng = Rng::new(seed.wrapping_add(k));
        generate::case(&mut rng, Flavour::Mixed, &mut case);
        let Some(lent) = fits(&case.words) else { continue };
        let new = |w: &[u64]| !found.iter().any(|c| c.words[1] == w[1] && (c.words[2] == 0) == (w[2] == 0));
        let small = case.words[3] <= 200 && case.bytes.len() < 8_000;
        if small && new(&case.words) && matches!(rules::judge(&case.words, lent, &case.bytes), Verdict::Accepted { .. }) {
            found.push(case.clone());
        }
        if found.len() == 18 {
            break;
        }
    }
    found
}

/// Each word at each edge value.
fn words(run: &mut Run, cases: &[Case]) -> Result<(), String> {
    let edges = [
        0,
        1,
        2,
        3,
        7,
        8,
        9,
        15,
        16,
        17,
        2_999,
        3_000,
        3_001,
        7_999,
        8_000,
        8_001,
        8_191,
        8_192,
        8_193,
        65_535,
        65_536,
        65_792,
        999_999_999,
        1_000_000_000,
        1_000_000_001,
        1 << 30,
        (1 << 30) + 1,
        1 << 32,
        (1 << 32) + 8_000,
        1 << 63,
        u64::MAX,
    ];
    for case in cases {
        for at in 0..PROFILE_WORDS {
            for edge in edges {
                let mut w = case.words;
                w[at] = edge;
                let lent = fits(&w).or(fits(&case.words)).unwrap();
                run.call(&format!("word {at} as {edge}"), &case.bytes, &w, lent)?;
            }
        }
        for length in [0, 1, 5, 53, 68, 70, 138] {
            let mut w = case.words.to_vec();
            w.resize(length, 0);
            run.wanted(&format!("{length} words"), &case.bytes, &w, fits(&case.words).unwrap(), 1)?;
        }
    }
    Ok(())
}

/// Lent slices one short, exact and longer, each alone and with other faults before and behind it in order.
fn lengths(run: &mut Run, cases: &[Case]) -> Result<(), String> {
    let around = |n: usize| [0, n.saturating_sub(1), n, n + 1, n + 9];
    let too_long = vec![0u8; MAX_RECORDING + 1];
    for case in cases {
        let exact = fits(&case.words).unwrap();
        for times in around(exact.times) {
            run.call("f64 work", &case.bytes, &case.words, Lengths { times, ..exact })?;
        }
        for places in around(exact.places) {
            run.call("u64 work", &case.bytes, &case.words, Lengths { places, ..exact })?;
        }
        for row in around(exact.row).into_iter().chain([exact.row + 5, exact.row + 6, exact.row + 60]) {
            run.call("row", &case.bytes, &case.words, Lengths { row, ..exact })?;
        }
        for report in [0, 1, 4, 323, 325, 648] {
            run.wanted("report", &case.bytes, &case.words, Lengths { report, ..exact }, 2)?;
        }
        let mut bad = case.words;
        bad[3] = 8_193;
        let short = Lengths { places: exact.places - 1, ..exact };
        run.wanted("1 before 2 and 3", &too_long, &bad, short, 1)?;
        run.wanted("2 before 3", &too_long, &case.words, short, 2)?;
        run.wanted("3 before 4", &too_long, &case.words, exact, 3)?;
        run.wanted("2 before 4", &[], &case.words, short, 2)?;
        run.wanted("4 on nothing", &[], &case.words, exact, 4)?;
        run.wanted("4 on one packet", &case.bytes[..188], &case.words, exact, 4)?;
    }
    Ok(())
}

/// The longest recording and one byte more, with layouts 188, 192 and 204, so that a remainder goes with it.
fn longest(run: &mut Run) -> Result<(), String> {
    let mut p = crate::figures::line_profile();
    p.clock_depth = 3_000;
    p.queue_depth = 8_192;
    let words = p.words();
    let lent = Lengths::exact(p.needed());
    for layout in generate::LAYOUTS {
        let mut rng = Rng::new(layout.0 as u64);
        let mut bytes = Vec::new();
        let mut w = generate::Writer { out: &mut bytes, layout, filler: 0 };
        for k in 0..MAX_RECORDING / layout.0 {
            let packet = if k % 64 == 0 { pcr_packet(256, k as u64 * 188 * 27, false) } else { head(k as u16 % 300, false, 1, 0) };
            w.put(&packet, &mut rng);
        }
        bytes.resize(MAX_RECORDING + 1, 0x47);
        run.wanted("16,777,217 bytes", &bytes, &words, lent, 3)?;
        run.wanted("16,777,216 bytes", &bytes[..MAX_RECORDING], &words, lent, 0)?;
        run.wanted("16,777,215 bytes", &bytes[..MAX_RECORDING - 1], &words, lent, 0)?;
    }
    Ok(())
}

/// Two PCRs `packets` apart with a step at the limits of number 9.
fn rates(run: &mut Run, most: usize) -> Result<(), String> {
    let words = crate::figures::line_profile().words();
    let lent = fits(&words).unwrap();
    let mut bytes = Vec::new();
    for packets in 1..=most {
        let last = 188 * packets;
        bytes.resize(last, 0);
        if packets > 1 {
            bytes[last - 188..].copy_from_slice(&head(8191, false, 1, 0));
        } else {
            bytes.copy_from_slice(&pcr_packet(256, 0, false));
        }
        let slowest = last as u64 * 27_000;
        let fastest = last as u64 * 27 / 1_000;
        for step in [slowest - 1, slowest, slowest + 1, fastest.saturating_sub(1), fastest, fastest + 1, fastest + 2] {
            bytes.extend(pcr_packet(256, step, false));
            run.call(&format!("{packets} packets in {step} ticks"), &bytes, &words, lent)?;
            bytes.truncate(last);
        }
    }
    Ok(())
}

/// Rows of PCRs alone, with steps, marks and depths at random: numbers 5 to 9 in their order.
fn clocks(run: &mut Run, seed: u64, count: u64) -> Result<(), String> {
    let mut bytes = Vec::new();
    for k in 0..count {
        let mut rng = Rng::new(seed ^ k << 20);
        let mut p = crate::figures::line_profile();
        bytes.clear();
        let samples = rng.size(0, 8);
        p.clock_depth = rng.size(2, 9);
        let anywhere = rng.below(generate::MODULUS);
        let mut ticks = rng.pick(&[0, generate::MODULUS - 1_000, anywhere]);
        let calm = rng.percent(60);
        for s in 0..samples {
            let packets = rng.size(1, 3);
            for _ in 1..packets {
                bytes.extend(head(rng.pick(&[8191, 256, 257]), false, 1, 0));
            }
            let mark = rng.percent(if calm && s == 1 { 0 } else { 12 });
            bytes.extend(pcr_packet(256, ticks % generate::MODULUS, mark));
            let step = match rng.below(if calm { 30 } else { 9 }) {
                0 => 0,
                1 => 1,
                2 => generate::MODULUS,
                3 => 188 * 27_000 * 3 + rng.range(0, 2),
                4 => rng.below(generate::MODULUS),
                _ => rng.range(20, 188 * 26_000),
            };
            ticks = (ticks + step) % generate::MODULUS;
        }
        for _ in 0..2 {
            bytes.extend(head(8191, false, 1, 0));
        }
        let words = p.words();
        run.call("clocks", &bytes, &words, fits(&words).unwrap())?;
    }
    Ok(())
}

/// The depth at which a case is just not refused by 10, and one less.
fn depths(run: &mut Run, seed: u64, count: u64) -> Result<(), String> {
    let mut case = Case::default();
    let mut progress = Progress::new("limits, depths", count);
    for k in 0..count {
        let mut rng = Rng::new(seed.wrapping_add(k));
        generate::case(&mut rng, Flavour::TinyQueues, &mut case);
        let number = |depth: u64| {
            let mut w = case.words;
            w[3] = depth;
            let lent = fits(&w)?;
            match rules::judge(&w, lent, &case.bytes) {
                Verdict::Refused { answer, .. } => Some(answer % 256),
                Verdict::Accepted { .. } => Some(0),
            }
        };
        let Some(least) = (1..=300).find(|d| number(*d) != Some(10)) else { continue };
        for depth in [least.saturating_sub(2), least.saturating_sub(1), least, least + 1] {
            if depth > 0 {
                case.words[3] = depth;
                let lent = fits(&case.words).ok_or("a depth outside the limits")?;
                let got = run.call("depth", &case.bytes, &case.words, lent)?;
                if (got == 10) != (depth < least) {
                    return Err(format!("limits, depth {depth} of {least}: number {got}"));
                }
            }
        }
        progress.at(k);
    }
    Ok(())
}

pub fn run(seed: u64, quick: bool) -> Result<(), String> {
    println!("limits: seed {seed}");
    let mut run = Run { m: Memory::default(), tally: Tally::default(), salt: seed };
    let scale = if quick { 1 } else { 20 };
    let cases = accepted(seed);
    if cases.len() < 18 {
        return Err(format!("limits: only {} of 18 kinds of accepted cases were made", cases.len()));
    }
    words(&mut run, &cases)?;
    lengths(&mut run, &cases)?;
    longest(&mut run)?;
    rates(&mut run, if quick { 300 } else { 3_000 })?;
    clocks(&mut run, seed, 10_000 * scale)?;
    depths(&mut run, seed, 2_000 * scale)?;
    run.tally.show("limits");
    for n in 0..11 {
        if run.tally.numbers[n] == 0 {
            return Err(format!("limits: answer {n} was never met"));
        }
    }
    if run.tally.queues.contains(&0) {
        return Err("limits: a cause of number 10 was never met".to_string());
    }
    Ok(())
}
