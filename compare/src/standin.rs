//! A stand-in for the static library, for work on this tool: the C function made of the rules and the Rust. It shows
//! nothing of our code. STANDIN_FAULT names a fault to make, so that each check can be seen to fail (selftest.sh).

use crate::rules::{self, Verdict};
use crate::rust;
use crate::words::*;
use std::slice::{from_raw_parts, from_raw_parts_mut};
use std::sync::OnceLock;

pub fn fault() -> &'static str {
    static FAULT: OnceLock<String> = OnceLock::new();
    FAULT.get_or_init(|| std::env::var("STANDIN_FAULT").unwrap_or_default())
}

#[unsafe(no_mangle)]
extern "C" fn tstd_replay(
    bytes: *const u8,
    bytes_len: usize,
    profile: *const u64,
    profile_len: usize,
    times: *mut f64,
    times_len: usize,
    places: *mut u64,
    places_len: usize,
    row: *mut u64,
    row_len: usize,
    report: *mut u64,
    report_len: usize,
) -> u64 {
    // SAFETY: the caller hands a pointer and a length for each slice.
    unsafe {
        replay(
            from_raw_parts(bytes, bytes_len),
            from_raw_parts(profile, profile_len),
            from_raw_parts_mut(times, times_len),
            from_raw_parts_mut(places, places_len),
            from_raw_parts_mut(row, row_len),
            from_raw_parts_mut(report, report_len),
        )
    }
}

fn replay(bytes: &[u8], words: &[u64], times: &mut [f64], places: &mut [u64], row: &mut [u64], report: &mut [u64]) -> u64 {
    let mut words = words.to_vec();
    if fault() == "depth" && words.len() == PROFILE_WORDS {
        words[3] = words[3].saturating_sub(1).max(1);
    }
    if fault() == "spare" && words.len() == PROFILE_WORDS && words[STREAMS_AT + 2] == 0 && words[STREAMS_AT + 4] > 1 << 30 {
        return 1;
    }
    let sizes = Lengths { times: times.len(), places: places.len(), row: row.len(), report: report.len() };
    let verdict = rules::judge(&words, sizes, bytes);
    if let Verdict::Refused { answer, .. } = verdict
        && answer % 256 <= 4
    {
        if fault() == "early" && !times.is_empty() {
            times[0] = 0.0;
        }
        return answer;
    }
    let profile = rules::profile(&words).unwrap();
    let needed = profile.needed();
    let zeroed = if fault() == "zero" { needed.times - 1 } else { needed.times };
    times[..zeroed].fill(0.0);
    places[..needed.places].fill(0);
    match verdict {
        Verdict::Refused { answer, .. } => {
            if fault() == "refused" {
                report[0] = 0;
            }
            if fault() == "place" && answer % 256 == 10 { answer + (1 << 24) } else { answer }
        }
        Verdict::Accepted { .. } => {
            let rust::Answer::Report { report: words, row: chains } = rust::replay(bytes, &rust::config(&profile)) else {
                return 255;
            };
            report.copy_from_slice(&words);
            row[..chains.len()].copy_from_slice(&chains);
            match fault() {
                "bit" => report[2] ^= 1,
                "negative" => row[..chains.len()].chunks_mut(CHAIN_WORDS).for_each(|c| c[5] |= u64::from(c[5] == 0) << 63),
                "surplus" if row.len() > chains.len() => row[chains.len()] = 0,
                "unused" => report[REPORT_WORDS - 1] = u64::from(words[3] == 0),
                "row" if !chains.is_empty() => row[chains.len() - 1] ^= u64::from(chains[chains.len() - 1] != 0),
                "content" => report[0] += u64::from(bytes.iter().rev().take(50).any(|b| *b == 0x13)),
                _ => {}
            }
            0
        }
    }
}
