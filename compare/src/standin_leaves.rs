//! The stand-in's leaves: the Rust behind the names of src/leaves.rs. The scanner's state is kept here and `state`
//! only names it. Each pointer comes with its length from src/leaves.rs, which owns the slice.

use crate::leaves;
use crate::words::*;
use oracle::leaves as theirs;
use oracle::tstd::*;
use std::cell::RefCell;
use std::slice::{from_raw_parts, from_raw_parts_mut};

thread_local! {
    static SCANNER: RefCell<theirs::Scanner> = RefCell::default();
}

#[unsafe(no_mangle)]
extern "C" fn leaf_extend_near(raw: u64, reference: u64, out: *mut u64, _: usize) -> u64 {
    if reference >= 0u64.wrapping_sub(1 << 33) {
        return 1;
    }
    let near = oracle::clock::extend_near(raw, reference);
    let tie = near.abs_diff(reference) == 1 << 32 && near < reference;
    unsafe { *out = if tie && crate::standin::fault() == "leaf" { near + (1 << 33) } else { near } };
    0
}

#[unsafe(no_mangle)]
extern "C" fn leaf_delta_ticks(a: u64, b: u64, out: *mut u64, _: usize) -> u64 {
    if a.max(b) >= (1 << 33) * 300 {
        return 1;
    }
    let pcr = |ticks_27mhz| oracle::clock::Pcr { ticks_27mhz };
    unsafe { *out = pcr(a).delta_ticks(pcr(b)) as u64 };
    0
}

#[unsafe(no_mangle)]
extern "C" fn leaf_optional_header(id: u8) -> u64 {
    theirs::has_optional_pes_header(id) as u64
}

#[unsafe(no_mangle)]
extern "C" fn leaf_layout(bytes: *const u8, len: usize) -> u64 {
    let bytes = unsafe { from_raw_parts(bytes, len) };
    oracle::packet::detect_packet_layout(bytes).map_or(0, |l| l.packet_size as u64)
}

#[unsafe(no_mangle)]
extern "C" fn leaf_parse(bytes: *const u8, len: usize, out: *mut u64, n: usize) -> u64 {
    let (case, words) = leaves::parsed(unsafe { from_raw_parts(bytes, len) });
    unsafe { from_raw_parts_mut(out, n) }.copy_from_slice(&words);
    case
}

#[unsafe(no_mangle)]
extern "C" fn leaf_feed(state: *mut u64, _: usize, payload: *const u8, len: usize, start: u64, out: *mut u64, n: usize) {
    let (state, payload, out) = unsafe { (&mut *state, from_raw_parts(payload, len), from_raw_parts_mut(out, n)) };
    let mut runs = Vec::new();
    SCANNER.with_borrow_mut(|s| {
        if *state == 0 {
            *s = theirs::Scanner::default();
        }
        s.feed(payload, start == 1, &mut runs);
    });
    *state = 1;
    let mut headers = runs.iter().filter(|r| r.2);
    let head = headers.next();
    out[0] = head.map_or(0, |r| r.1 as u64);
    out[1] = head.and_then(|r| r.3).map_or(0, |s| s + 1);
    out[2] = headers.next().map_or(0, |r| r.1 as u64);
    out[3] = runs.iter().find(|r| !r.2).map_or(0, |r| r.1 as u64);
}

#[unsafe(no_mangle)]
extern "C" fn leaf_fifo_new(rate: u64, state: *mut f64, n: usize) {
    let none = f64::NEG_INFINITY;
    unsafe { from_raw_parts_mut(state, n) }.copy_from_slice(&[rate as f64 / 8.0, none, none, 0.0, 0.0]);
}

#[unsafe(no_mangle)]
extern "C" fn leaf_fifo_push(state: *mut f64, m: usize, from: f64, to: f64, bytes: f64, out: *mut f64, n: usize) {
    let (s, out) = unsafe { (from_raw_parts_mut(state, m), from_raw_parts_mut(out, n)) };
    if bytes <= 0.0 {
        out.fill(s[1].max(from));
        return;
    }
    if s[2] == f64::NEG_INFINITY {
        s[2] = from;
    } else if s[1] < from - 1e-6 {
        s[4] = s[4].max(s[1] - s[2]);
        s[2] = from;
    }
    let start = s[1].max(from);
    let end = to.max(start + bytes / s[0]);
    s[3] = s[3].max((end - to) * s[0]);
    s[1] = end;
    s[4] = s[4].max(end - s[2]);
    out.copy_from_slice(&[start, end]);
}

#[unsafe(no_mangle)]
extern "C" fn leaf_record(report: *mut u64, m: usize, line: *const u64, n: usize) -> u64 {
    let (words, line) = unsafe { (from_raw_parts_mut(report, m), from_raw_parts(line, n)) };
    let lines = words[4..].chunks(LINE_WORDS).take(words[3] as usize).map(|l| l.try_into().unwrap());
    let mut report = theirs::Report::of(words[0], lines);
    report.record(line.try_into().unwrap());
    if report.lines().len() > 64 {
        return 1;
    }
    words.copy_from_slice(&leaves::record_words(&report));
    0
}

#[unsafe(no_mangle)]
extern "C" fn leaf_model(kind: u64, a: u64, b: u64, c: u64, out: *mut u64, n: usize) -> u64 {
    let rates = |x: u64| (8_000..=1_000_000_000).contains(&x);
    let sizes = |x: u64| (1..=1 << 30).contains(&x);
    let (legal, model) = match kind {
        0 => (true, TStdStreamModel::audio()),
        1 => (rates(a) && sizes(b) && sizes(c), TStdStreamModel::video_low_main_level(a, b as usize, c as usize)),
        _ => (rates(a) && rates(b) && sizes(c), TStdStreamModel::video_high_level(a, b, c as usize)),
    };
    if !legal {
        return 1;
    }
    let words = match model.branch {
        TStdBranch::Main { buffer_size } => [model.rx_bps, 0, buffer_size as u64, 0, 0],
        TStdBranch::Video { rbx_bps, mb_size, eb_size } => [model.rx_bps, 1, rbx_bps, mb_size as u64, eb_size as u64],
        _ => return 255,
    };
    unsafe { from_raw_parts_mut(out, n) }.copy_from_slice(&words);
    0
}
