//! The Rust's answer: a profile becomes its configuration, its report the boundary's words. An `Unsupported` is
//! read by its text, which names one of the refusals 4 to 7.

use crate::words::*;
use oracle::TsError;
use oracle::tstd::*;

pub enum Answer {
    Report {
        report: [u64; REPORT_WORDS],
        row: Vec<u64>,
    },
    /// 4 to 7.
    Refused(u64),
}

pub fn config(profile: &Profile) -> TStdConfig {
    let model = |s: &Stream| {
        let branch = match s.branch {
            Branch::Main { size } => TStdBranch::Main { buffer_size: size as usize },
            Branch::Video { rbx, mb, eb } => TStdBranch::Video { rbx_bps: rbx, mb_size: mb as usize, eb_size: eb as usize },
        };
        (s.pid, TStdStreamModel::new(s.rx, branch))
    };
    TStdConfig::default()
        .with_pcr_pid(profile.pcr_pid)
        .with_streams(profile.streams.iter().map(model).collect())
        .with_system_pids(profile.system.clone())
}

/// Kind, PID, limit, decode time and figure.
pub fn line(v: &TStdViolation) -> [u64; LINE_WORDS] {
    use TStdViolation::*;
    match *v {
        TbOverflow { pid, peak_bytes } => [0, pid as u64, 0, 0, peak_bytes],
        TbBusyOverOneSecond { pid, seconds } => [1, pid as u64, 0, 0, bits(seconds)],
        MainOverflow { pid, peak_bytes, limit } => [2, pid as u64, limit as u64, 0, peak_bytes],
        MainUnderflow { pid, decode_time, missing_bytes } => [3, pid as u64, 0, bits(decode_time), missing_bytes],
        MbOverflow { pid, peak_bytes, limit } => [4, pid as u64, limit as u64, 0, peak_bytes],
        MbBusyOverOneSecond { pid, seconds } => [5, pid as u64, 0, 0, bits(seconds)],
        EbUnderflow { pid, decode_time, missing_bytes } => [6, pid as u64, 0, bits(decode_time), missing_bytes],
        DelayOverOneSecond { pid, decode_time, delay_seconds } => [7, pid as u64, 0, bits(decode_time), bits(delay_seconds)],
        BsysOverflow { peak_bytes } => [8, 0, 0, 0, peak_bytes],
        _ => unreachable!("a tenth kind of violation"),
    }
}

pub fn report_words(r: &TStdReport) -> [u64; REPORT_WORDS] {
    let mut w = [0; REPORT_WORDS];
    w[0] = r.violation_events;
    w[1] = r.pcr_samples as u64;
    w[2] = bits(r.modelled_seconds);
    w[3] = r.violations.len() as u64;
    for (k, v) in r.violations.iter().enumerate() {
        let at = 4 + k * LINE_WORDS;
        w[at..at + LINE_WORDS].copy_from_slice(&line(v));
    }
    w
}

pub fn replay(bytes: &[u8], config: &TStdConfig) -> Answer {
    match analyze_tstd(bytes, config) {
        Ok(r) => {
            let chain = |c: &TStdChainStats| {
                [c.pid as u64, c.peak_tb_bytes, c.peak_main_bytes, c.peak_eb_bytes, c.access_units, bits(c.max_delay_seconds)]
            };
            Answer::Report { report: report_words(&r), row: r.chains.iter().flat_map(chain).collect() }
        }
        Err(TsError::Unsupported(text)) => Answer::Refused(number(text)),
        Err(other) => unreachable!("the Rust answered {other}"),
    }
}

fn number(text: &str) -> u64 {
    match text {
        "T-STD model: no TS packet layout" => 4,
        "T-STD model needs at least two PCRs on the PCR_PID" => 5,
        "T-STD model: discontinuity before any rate is established" => 6,
        "T-STD model: repeated PCR value on the PCR_PID" => 7,
        _ => unreachable!("the Rust answered {text}"),
    }
}
