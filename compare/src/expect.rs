//! What document 01 and the Rust together demand of one call, and whether our library's call kept it: the answer, the
//! report and row, what work holds afterwards, and that nothing else was written.

use crate::ffi::{self, Call, Memory};
use crate::rules::{self, Queue, Seen, Verdict};
use crate::rust;
use crate::words::*;

/// What must come out. `report` and `row` count only for an accepted call.
pub struct Expected {
    pub answer: u64,
    pub report: [u64; REPORT_WORDS],
    pub row: Vec<u64>,
    pub needed: Option<Needed>,
    pub queue: Option<Queue>,
    pub seen: Seen,
}

impl Expected {
    pub fn number(&self) -> u64 {
        self.answer % 256
    }

    fn refused(answer: u64, needed: Option<Needed>, queue: Option<Queue>) -> Self {
        Expected { answer, report: [0; REPORT_WORDS], row: Vec::new(), needed, queue, seen: Seen::default() }
    }
}

/// The rules say which call an added number refuses; every other answer is the Rust's own. An error is a
/// disagreement between the two on this side, before our library is asked.
pub fn expected(bytes: &[u8], words: &[u64], lent: Lengths) -> Result<Expected, String> {
    let verdict = rules::judge(words, lent, bytes);
    let profile = rules::profile(words);
    let needed = profile.as_ref().map(Profile::needed);
    if let Verdict::Refused { answer, queue } = verdict
        && matches!(answer % 256, 1 | 2 | 3 | 8 | 9 | 10)
    {
        return Ok(Expected::refused(answer, needed, queue));
    }
    let Some(profile) = profile else { return Err("a refused profile was judged".to_string()) };
    match (verdict, rust::replay(bytes, &rust::config(&profile))) {
        (Verdict::Refused { answer, .. }, rust::Answer::Refused(number)) if answer % 256 == number => {
            Ok(Expected::refused(answer, needed, None))
        }
        (Verdict::Accepted { samples, row: ours, seen }, rust::Answer::Report { report, row }) => {
            if ours != row || samples as u64 != report[1] {
                return Err(format!("the rules' replay has row {ours:?}, the Rust {row:?}"));
            }
            Ok(Expected { answer: 0, report, row, needed, queue: None, seen })
        }
        (Verdict::Refused { answer, .. }, _) => Err(format!("the rules say {}, the Rust another thing", answer_text(answer))),
        (Verdict::Accepted { .. }, rust::Answer::Refused(n)) => Err(format!("the rules accept, the Rust says {n}")),
    }
}

/// Calls our library on prepared memory and compares with what is expected.
pub fn check(bytes: &[u8], words: &[u64], lent: Lengths, salt: u64, m: &mut Memory, want: &Expected) -> Result<(), String> {
    m.prepare(lent, salt);
    check_call(ffi::replay, bytes, words, m, want)
}

/// The same of any library, on memory that was prepared.
pub fn check_call(replay: Call, bytes: &[u8], words: &[u64], m: &mut Memory, want: &Expected) -> Result<(), String> {
    let answer = replay(bytes, words, m);
    if answer != want.answer {
        return Err(format!("answer: ours {}, expected {}", answer_text(answer), answer_text(want.answer)));
    }
    match want.number() {
        1..=4 => unchanged(m, 0, 0)?,
        _ => {
            let needed = want.needed.ok_or("no need known")?;
            if let Some(k) = m.times.not_zero(needed.times) {
                return Err(format!("f64 {k} of the needed {} is not zeroed", needed.times));
            }
            if let Some(k) = m.places.not_zero(needed.places) {
                return Err(format!("u64 {k} of the needed {} is not zeroed", needed.places));
            }
            unchanged(m, needed.times, needed.places)?;
        }
    }
    if answer != 0 {
        kept("row", m.row.changed(0))?;
        return kept("report", m.report.changed(0));
    }
    report_and_row(m, want)
}

fn kept(name: &str, changed: Option<String>) -> Result<(), String> {
    match changed {
        None => Ok(()),
        Some(place) => Err(format!("{name}: {place} was changed")),
    }
}

fn unchanged(m: &Memory, times: usize, places: usize) -> Result<(), String> {
    kept("f64 work", m.times.changed(times))?;
    kept("u64 work", m.places.changed(places))
}

fn report_and_row(m: &mut Memory, want: &Expected) -> Result<(), String> {
    kept("row's surplus", m.row.changed(want.row.len()))?;
    kept("report's end", m.report.changed(REPORT_WORDS))?;
    level_report(m.report.get_mut());
    if let Some(k) = (0..REPORT_WORDS).find(|&k| m.report.get()[k] != want.report[k]) {
        return Err(report_word(k, m.report.get(), &want.report));
    }
    for (k, chain) in m.row.get_mut()[..want.row.len()].chunks_mut(CHAIN_WORDS).enumerate() {
        level_chain(chain);
        let other = &want.row[k * CHAIN_WORDS..(k + 1) * CHAIN_WORDS];
        if chain != other {
            return Err(format!("chain {k}: ours {chain:?}, the Rust {other:?}"));
        }
    }
    Ok(())
}

fn report_word(k: usize, ours: &[u64], theirs: &[u64]) -> String {
    if k < 4 {
        let name = ["events", "PCR samples", "bits of the modelled seconds", "lines"][k];
        return format!("report: {name}: ours {}, the Rust {}", ours[k], theirs[k]);
    }
    let line = (k - 4) / LINE_WORDS;
    let at = 4 + line * LINE_WORDS;
    format!("report: line {line}: ours {:?}, the Rust {:?}", &ours[at..at + LINE_WORDS], &theirs[at..at + LINE_WORDS])
}
