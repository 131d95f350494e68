//! The Rust, an older library and ours in one process on the recordings of `bench`, in turn, the least of the runs: what
//! a change of ours costs. Build with the feature `before`.

use crate::bench::{self, Input, Times};
use crate::ffi::{Call, Memory};
use crate::rules;
use crate::words::*;
use std::fs;
use std::hint::black_box;
use std::time::Duration;

// Not by the wrapper: behind it the stack would lie otherwise than behind the older library's call, and that alone can
// take another time.
macro_rules! library {
    ($call:ident, $symbol:ident) => {
        fn $call(bytes: &[u8], profile: &[u64], m: &mut Memory) -> u64 {
            unsafe extern "C" {
                fn $symbol(
                    bytes: *const u8,
                    bytes_len: usize,
                    profile: *const u64,
                    profile_len: usize,
                    times: *mut f64,
                    times_len: usize,
                    places: *mut u64,
                    places_len: usize,
                    row: *mut u64,
                    row_len: usize,
                    report: *mut u64,
                    report_len: usize,
                ) -> u64;
            }
            let (times, places, row, report) = m.lent();
            let (t, p, r, w) = (times.len(), places.len(), row.len(), report.len());
            let (times, places, row, report) = (times.as_mut_ptr(), places.as_mut_ptr(), row.as_mut_ptr(), report.as_mut_ptr());
            let (b, n) = (bytes.as_ptr(), bytes.len());
            // SAFETY: each pointer comes with the length of its own slice, and the changed slices overlap nothing.
            unsafe { $symbol(b, n, profile.as_ptr(), profile.len(), times, t, places, p, row, r, report, w) }
        }
    };
}

library!(before, before_tstd_replay);
library!(after, tstd_replay);

const LIBRARIES: [(&str, Call); 2] = [("before", before), ("after", after)];
/// How often a row above the bound is timed again, since rows move by some per cent from run to run.
const AGAIN: u32 = 3;

struct Versus {
    m: Memory,
    least: u32,
    budget: Duration,
    most: f64,
    rows: u32,
    retimed: u32,
    /// The greatest after/before, and its recording.
    worst: (f64, String),
    above: u32,
}

fn ratio([before, after]: &[Times; 2]) -> f64 {
    after.ours / before.ours
}

fn lesser(a: Times, b: Times) -> Times {
    Times { rust: a.rust.min(b.rust), ours: a.ours.min(b.ours), runs: a.runs + b.runs }
}

impl Versus {
    /// Times a recording, and again and longer while it is above the bound, with the least of all kept.
    fn time(&mut self, input: &Input) -> Result<[Times; 2], String> {
        let mut t = bench::in_turn(input, LIBRARIES, &mut self.m, self.least, self.budget)?;
        let mut again = 0;
        while ratio(&t) > self.most && again < AGAIN {
            again += 1;
            let [before, after] = bench::in_turn(input, LIBRARIES, &mut self.m, self.least, (1 << again) * self.budget)?;
            t = [lesser(t[0], before), lesser(t[1], after)];
        }
        self.retimed += u32::from(again > 0);
        Ok(t)
    }

    fn show(&mut self, inputs: Vec<Input>) -> Result<(), String> {
        for input in inputs {
            let t = self.time(&input)?;
            let before = t[0].ours * 1e9 / bench::packets(&input.bytes) as f64;
            println!("  {}; before {before:.1}, after/before {:.3}", bench::line(&input, &t[1]), ratio(&t));
            self.rows += 1;
            self.above += u32::from(ratio(&t) > self.most);
            if ratio(&t) > self.worst.0 {
                self.worst = (ratio(&t), format!("{} ({})", input.name, input.profile.about()));
            }
        }
        Ok(())
    }
}

/// Fails if a recording takes more than `most` of its time before.
pub fn run(quick: bool, most: f64) -> Result<(), String> {
    println!("versus: the Rust, the library before and after (ours) in one process, in turn, the least of the runs");
    let (least, millis) = if quick { (10, 300) } else { (40, 3_000) };
    let budget = Duration::from_millis(millis);
    let mut v = Versus { m: Memory::default(), least, budget, most, rows: 0, retimed: 0, worst: (0.0, String::new()), above: 0 };
    let sizes = bench::sizes(quick);
    v.show(bench::parsed_inputs(sizes))?;
    v.show(bench::unparsed_inputs())?;
    v.show(bench::real_inputs(sizes))?;
    v.show(bench::header_inputs(sizes))?;
    v.show(bench::shorter_inputs())?;
    println!("  {} recordings, {} timed again; greatest after/before {:.3}: {}", v.rows, v.retimed, v.worst.0, v.worst.1);
    match v.above {
        0 => Ok(()),
        n => Err(format!("versus: {n} recordings take more than {most} of the time before")),
    }
}

/// Only calls of one library on one recording, for a program that counts instructions.
pub fn once(recording: &str, which: &str, times: u64) -> Result<(), String> {
    let (_, replay) = LIBRARIES.into_iter().find(|l| l.0 == which).ok_or(format!("--which {which}: before or after"))?;
    let beside = format!("{recording}.profile");
    let text = fs::read_to_string(&beside).map_err(|e| format!("{beside}: {e}"))?;
    let bytes = fs::read(recording).map_err(|e| format!("{recording}: {e}"))?;
    let words = read_profile(&text)?;
    let profile = rules::profile(&words).ok_or(format!("{beside}: outside the limits"))?;
    let mut m = Memory::default();
    m.prepare(Lengths::exact(profile.needed()), 1);
    let mut answer = 0;
    for _ in 0..times {
        answer = black_box(replay(black_box(&bytes), black_box(&words), &mut m));
    }
    println!("{} packets, {which}: {}", bench::packets(&bytes), answer_text(answer));
    Ok(())
}
