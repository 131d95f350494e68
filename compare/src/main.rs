//! `compare`: the unchanged Rust and our library, side by side. README.md lists the commands. Exit status 1 on the
//! first difference.

mod bench;
mod blind;
mod content;
mod expect;
mod ffi;
mod figures;
mod fuzz;
mod generate;
mod leaves;
mod limits;
mod line;
mod psi;
mod rng;
mod rules;
mod rust;
mod sample;
mod slowest;
#[cfg(feature = "standin")]
mod standin;
#[cfg(all(feature = "standin", feature = "leaves"))]
mod standin_leaves;
mod streams;
mod tally;
#[cfg(feature = "before")]
mod versus;
mod words;

use std::fmt::Display;
use std::process::ExitCode;
use std::str::FromStr;

const USAGE: &str = "usage: compare COMMAND [--seed N] [--count N] [--quick]
  fuzz [--part] | figures | limits | blind | streams | damage | leaves | line PROGRAM | lines FILE | all [--no-streams]
  bench | slowest | one FILE.profile FILE.ts | sample FILE
  versus [--most X] | versus --once FILE.ts --which before|after [--times N]";

/// `--name value` among the arguments, or a default.
fn option<T: FromStr<Err: Display>>(args: &[String], name: &str, default: T) -> Result<T, String> {
    match args.iter().position(|a| a == name) {
        None => Ok(default),
        Some(k) => {
            let text = args.get(k + 1).ok_or(format!("{name} wants a number"))?;
            text.replace('_', "").parse().map_err(|e| format!("{name} {text}: {e}"))
        }
    }
}

fn run(args: &[String]) -> Result<(), String> {
    let command = args.first().map_or("", String::as_str);
    let seed = option(args, "--seed", 1)?;
    let quick = args.iter().any(|a| a == "--quick");
    match command {
        "fuzz" => fuzz::run(seed, option(args, "--count", 1_000_000)?, !args.iter().any(|a| a == "--part")),
        "figures" => figures::run(),
        "limits" => limits::run(seed, quick),
        "blind" => blind::run(seed, option(args, "--count", 200_000)?),
        "streams" => streams::run(),
        "damage" => streams::damaged(seed, option(args, "--count", 20_000)?),
        "bench" => bench::run(quick),
        "versus" => versus(args, quick),
        "slowest" => slowest::run(seed, option(args, "--count", 300)?),
        "sample" if args.len() > 1 => sample::run(&args[1], seed, option(args, "--count", 300)? as usize),
        "all" => all(seed, quick, !args.iter().any(|a| a == "--no-streams")),
        "leaves" => leaves::run(seed, option(args, "--count", 1_000_000)?),
        "line" if args.len() > 1 => line::run(&args[1], seed, option(args, "--count", 2_000)?),
        "lines" if args.len() == 2 => line::print(&args[1]),
        "one" if args.len() == 3 => fuzz::one(&args[1], &args[2]),
        _ => Err(USAGE.to_string()),
    }
}

#[cfg(feature = "before")]
fn versus(args: &[String], quick: bool) -> Result<(), String> {
    let text = |name| args.iter().position(|a| a == name).and_then(|k| args.get(k + 1));
    match (text("--once"), text("--which")) {
        (None, None) => versus::run(quick, option(args, "--most", 1.02)?),
        (Some(recording), Some(which)) => versus::once(recording, which, option(args, "--times", 1)?),
        _ => Err(USAGE.to_string()),
    }
}

#[cfg(not(feature = "before"))]
fn versus(_: &[String], _: bool) -> Result<(), String> {
    Err("versus: build with `--features before` and the older library in TSTD_BEFORE".to_string())
}

/// Everything but the bench; quick is under two minutes.
fn all(seed: u64, quick: bool, streams: bool) -> Result<(), String> {
    let scale = if quick { 1 } else { 10 };
    figures::run()?;
    limits::run(seed, quick)?;
    fuzz::run(seed, 300_000 * scale, true)?;
    blind::run(seed, 100_000 * scale)?;
    leaves::run(seed, 100_000 * scale)?;
    if !streams {
        println!("streams and damage: LEFT OUT, as asked");
        return Ok(());
    }
    streams::run()?;
    streams::damaged(seed, 5_000 * scale)
}

fn main() -> ExitCode {
    let args: Vec<String> = std::env::args().skip(1).collect();
    match run(&args) {
        Ok(()) => {
            if args[0] != "lines" && !args.iter().any(|a| a == "--once") {
                println!("compare: no difference");
            }
            ExitCode::SUCCESS
        }
        Err(e) => {
            eprintln!("compare: {e}");
            ExitCode::FAILURE
        }
    }
}
