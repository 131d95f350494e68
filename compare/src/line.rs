//! The line program, run on its standard input: its whole output beside the lines of the Rust's answer, and number 3
//! above 32,768 bytes.

use crate::expect;
use crate::figures::{line_packets, line_profile, lines};
use crate::fuzz::{Progress, save};
use crate::generate::{self, Case};
use crate::rng::Rng;
use crate::words::*;
use std::io::Write;
use std::process::{Command, Stdio};

const LONGEST: usize = 32_768;

fn wanted(bytes: &[u8]) -> Result<String, String> {
    if bytes.len() > LONGEST {
        return Ok("refused,3,0\n".to_string());
    }
    let p = line_profile();
    let want = expect::expected(bytes, &p.words(), Lengths::exact(p.needed()))?;
    if want.answer == 0 {
        return Ok(lines(&want));
    }
    let (number, place, _) = parts(want.answer);
    Ok(format!("refused,{number},{place}\n"))
}

fn output(program: &str, bytes: &[u8]) -> Result<String, String> {
    let told = |e: std::io::Error| format!("{program}: {e}");
    let mut child = Command::new(program).stdin(Stdio::piped()).stdout(Stdio::piped()).spawn().map_err(told)?;
    let mut input = child.stdin.take().ok_or("no standard input")?;
    // A program that has read enough may close its input.
    let _ = input.write_all(bytes);
    drop(input);
    let out = child.wait_with_output().map_err(told)?;
    String::from_utf8(out.stdout).map_err(|e| format!("{program}: {e}"))
}

/// What the line program must write for a file.
pub fn print(file: &str) -> Result<(), String> {
    let bytes = std::fs::read(file).map_err(|e| format!("{file}: {e}"))?;
    print!("{}", wanted(&bytes)?);
    Ok(())
}

pub fn run(program: &str, seed: u64, count: u64) -> Result<(), String> {
    let words = line_profile().words();
    let mut progress = Progress::new("line", count);
    let mut numbers = [0; 11];
    let mut case = Case { words, bytes: Vec::new() };
    for k in 0..count {
        let mut rng = Rng::new(seed.wrapping_add(k));
        match k {
            0 => case.bytes = line_packets(),
            1 => case.bytes.clear(),
            2 => case.bytes = vec![0x47; LONGEST],
            3 => case.bytes = vec![0x47; LONGEST + 1],
            4 => case.bytes.resize(100_000, 0),
            _ => generate::for_profile(&mut rng, &line_profile(), 170, &mut case),
        }
        if k > 4 && rng.one_in(50) {
            case.bytes.resize(rng.size(LONGEST - 4, LONGEST + 4), 0x47);
        }
        let want = wanted(&case.bytes)?;
        let got = output(program, &case.bytes)?;
        if got != want {
            let saved = save(&format!("line_{k}"), &words, &case.bytes);
            return Err(format!("line, seed {}: wrote\n{got}expected\n{want}  {saved}", seed.wrapping_add(k)));
        }
        let number = want.strip_prefix("refused,").and_then(|r| r.split(',').next()?.parse::<usize>().ok());
        numbers[number.unwrap_or(0)] += 1;
        progress.at(k);
    }
    println!("line: {count} inputs to {program}: accepted {}, refused {:?} by number 1 to 10", numbers[0], &numbers[1..]);
    Ok(())
}
