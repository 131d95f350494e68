//! Real and published streams from streams/ (streams.sh makes them): undamaged, and damaged copies of parts of them.
//! A stream without a profile beside it gets one from its own tables.

use crate::expect;
use crate::ffi::Memory;
use crate::fuzz::{Progress, save};
use crate::psi;
use crate::rng::Rng;
use crate::rules;
use crate::tally::Tally;
use crate::words::*;
use std::fs;

pub struct Real {
    pub name: String,
    pub bytes: Vec<u8>,
    pub profile: Profile,
}

/// Every stream of the folder, by name.
pub fn all() -> Result<Vec<Real>, String> {
    let folder = std::env::var("STREAMS").unwrap_or("streams".to_string());
    let listed = fs::read_dir(&folder)
        .map_err(|e| format!("{folder}: {e}; make the streams with `sh streams.sh`, or name their folder in STREAMS"))?;
    let mut names: Vec<String> = listed.flatten().filter_map(|f| f.file_name().into_string().ok()).collect();
    names.retain(|n| n.ends_with(".ts") || n.ends_with(".m2ts"));
    names.sort();
    let mut found = Vec::new();
    for name in names {
        let path = format!("{folder}/{name}");
        let bytes = fs::read(&path).map_err(|e| format!("{path}: {e}"))?;
        let beside = format!("{path}.profile");
        let text = match fs::read_to_string(&beside) {
            Ok(text) => text,
            Err(_) => {
                let Some(p) = psi::profile(&bytes) else { continue };
                fs::write(&beside, p.text()).map_err(|e| format!("{beside}: {e}"))?;
                p.text()
            }
        };
        let words = read_profile(&text)?;
        let profile = rules::profile(&words).ok_or(format!("{beside}: outside the limits"))?;
        found.push(Real { name, bytes, profile });
    }
    Ok(found)
}

/// Other profiles over the same PIDs: every stream main, every stream video with little room, and slow ones.
fn variants(p: &Profile) -> Vec<Profile> {
    let with =
        |f: &dyn Fn(&Stream) -> Stream, queue_depth| Profile { streams: p.streams.iter().map(f).collect(), queue_depth, ..p.clone() };
    let main = |s: &Stream| Stream { branch: Branch::Main { size: 3_584 }, ..s.clone() };
    let tight = |s: &Stream| Stream { branch: Branch::Video { rbx: 1_000_000, mb: 2_000, eb: 20_000 }, ..s.clone() };
    let tiny = |s: &Stream| Stream { rx: 300_000, branch: Branch::Video { rbx: 300_000, mb: 1, eb: 2 }, ..s.clone() };
    let wide =
        |s: &Stream| Stream { rx: 1_000_000_000, branch: Branch::Video { rbx: 1_000_000_000, mb: 1 << 30, eb: 1 << 30 }, ..s.clone() };
    vec![p.clone(), with(&main, 8_192), with(&tight, 8_192), with(&tiny, 8_192), with(&wide, 8_192), with(&|s| s.clone(), 128)]
}

fn compare(name: &str, bytes: &[u8], words: &[u64], salt: u64, m: &mut Memory, tally: &mut Tally) -> Result<u64, String> {
    let lent = match rules::profile(words) {
        Some(p) => Lengths::exact(p.needed()),
        None => return Err(format!("{name}: a profile outside the limits")),
    };
    let judged = expect::expected(bytes, words, lent).and_then(|want| expect::check(bytes, words, lent, salt, m, &want).map(|()| want));
    match judged {
        Ok(want) => {
            tally.add(words, bytes.len(), &want);
            Ok(want.answer)
        }
        Err(e) => Err(format!("{name}: {e}\n  {}", save(&format!("real_{salt}"), words, bytes))),
    }
}

pub fn run() -> Result<(), String> {
    println!("streams:");
    let mut m = Memory::default();
    let mut tally = Tally::default();
    let mut accepted = 0;
    let list = all()?;
    for real in &list {
        let grid = rules::layout(&real.bytes).ok_or(format!("{}: no layout", real.name))?;
        let mut said = Vec::new();
        for (k, p) in variants(&real.profile).iter().enumerate() {
            let answer = compare(&real.name, &real.bytes, &p.words(), k as u64, &mut m, &mut tally)?;
            accepted += u64::from(answer == 0);
            said.push(if answer == 0 { "ok".to_string() } else { (answer % 256).to_string() });
        }
        println!(
            "  {}: {} bytes, layout {}, {} streams: {}",
            real.name,
            real.bytes.len(),
            grid.0,
            real.profile.streams.len(),
            said.join(" ")
        );
    }
    tally.show("streams");
    if accepted == 0 { Err("streams: none was accepted".to_string()) } else { Ok(()) }
}

/// A part of a stream: whole packets, at times all of it.
pub fn part<'a>(real: &'a Real, rng: &mut Rng) -> &'a [u8] {
    let size = rules::layout(&real.bytes).map_or(188, |g| g.0);
    let whole = real.bytes.len() / size;
    if whole < 6_000 && rng.one_in(60) {
        return &real.bytes;
    }
    let count = rng.size(20, 2_500).min(whole);
    let first = if rng.one_in(3) { 0 } else { rng.size(0, whole - count) };
    &real.bytes[first * size..(first + count) * size]
}

/// Damage of one sort; the layout's first eight sync bytes mostly survive.
fn damage(bytes: &mut Vec<u8>, size: usize, sync: usize, rng: &mut Rng) {
    let packets = bytes.len() / size;
    if packets < 10 {
        return;
    }
    let some = |rng: &mut Rng| {
        let first = if rng.one_in(20) { 0 } else { 8 };
        rng.size(first, packets - 1) * size
    };
    match rng.below(11) {
        0 => {
            for _ in 0..rng.size(1, 200) {
                let at = some(rng) + rng.size(0, size - 1);
                bytes[at] ^= 1 << rng.below(8);
            }
        }
        1 => {
            for _ in 0..rng.size(1, 60) {
                let at = some(rng) + sync + rng.size(1, 24);
                bytes[at] = rng.byte();
            }
        }
        2 => {
            for _ in 0..rng.size(1, 20) {
                let at = some(rng).min(bytes.len() - size);
                bytes.drain(at..at + size);
                if bytes.len() < 12 * size {
                    break;
                }
            }
        }
        3 => {
            let (a, b) = (some(rng), some(rng));
            let copy = bytes[a..a + size].to_vec();
            bytes.splice(b..b, copy);
        }
        4 => {
            let at = some(rng) + rng.size(0, size - 1);
            let junk = rng.size(1, 400);
            bytes.splice(at..at, std::iter::repeat_n(0x47, junk));
        }
        5 => {
            let at = some(rng);
            let gone = rng.size(1, 3 * size).min(bytes.len() - at);
            bytes.drain(at..at + gone);
        }
        6 => bytes.truncate(rng.size(2 * size, bytes.len())),
        7 => {
            let (a, b) = (some(rng), some(rng));
            for k in 0..size {
                bytes.swap(a + k, b + k);
            }
        }
        8 => {
            let at = some(rng);
            let end = (at + rng.size(1, 20) * size).min(bytes.len());
            rng.fill(&mut bytes[at..end]);
        }
        9 => clocks(bytes, size, sync, rng),
        _ => {
            for _ in 0..rng.size(1, 40) {
                let at = some(rng) + sync;
                bytes[at + 3] = bytes[at + 3] & 0xcf | (rng.byte() & 0x30);
            }
        }
    }
}

/// Damage to the PCRs and marks alone.
fn clocks(bytes: &mut [u8], size: usize, sync: usize, rng: &mut Rng) {
    let chance = rng.pick(&[2, 10, 50]);
    for window in bytes.chunks_exact_mut(size) {
        let p = &mut window[sync..sync + 188];
        if rules::parse(p).is_some_and(|q| q.pcr.is_some()) && rng.one_in(chance) {
            match rng.below(4) {
                0 => p[5] ^= 0x80,
                1 => p[11] = rng.byte(),
                2 => p[9] ^= 1 << rng.below(8),
                _ => p[6] = rng.byte(),
            }
        }
    }
}

pub fn damaged(seed: u64, count: u64) -> Result<(), String> {
    let list = all()?;
    println!("damage: seeds {seed} to {}, {} streams", seed.wrapping_add(count - 1), list.len());
    let mut m = Memory::default();
    let mut tally = Tally::default();
    let mut progress = Progress::new("damage", count);
    for k in 0..count {
        let mut rng = Rng::new(seed.wrapping_add(k));
        let real = &list[rng.below(list.len() as u64) as usize];
        let mut bytes = part(real, &mut rng).to_vec();
        let (size, sync) = rules::layout(&bytes).unwrap_or((188, 0));
        for _ in 0..rng.size(1, 3) {
            damage(&mut bytes, size, sync, &mut rng);
        }
        let choices = variants(&real.profile);
        let mut profile = choices[rng.below(choices.len() as u64) as usize].clone();
        if !rng.one_in(10) {
            profile.queue_depth = profile.queue_depth.min(rng.size(32, 600));
            profile.clock_depth = profile.clock_depth.min(rng.size(100, 600));
        }
        compare(&format!("damage, seed {}, {}", seed.wrapping_add(k), real.name), &bytes, &profile.words(), k, &mut m, &mut tally)?;
        progress.at(k);
    }
    tally.show("damage");
    println!("  {:.1} s", progress.seconds());
    Ok(())
}
