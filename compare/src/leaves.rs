//! Each leaf beside the Rust's own: time stamps, clock steps, packets with the whole adaptation field, layouts, the
//! scanner, the FIFO, `record` and the constructors. Without the feature `leaves` our library is not asked, and only
//! this tool's second reading of packets and layouts (rules.rs) is held to the Rust.
//!
//! The functions that the library exports for it, slices as a pointer and a length, `out` written from its start:
//! - `leaf_extend_near(raw: u64, reference: u64, out: &mut [u64]) -> u64`: number; out: the stamp.
//! - `leaf_delta_ticks(a: u64, b: u64, out: &mut [u64]) -> u64`: number; out: the step as two's complement.
//! - `leaf_optional_header(id: u8) -> u64`: 0 or 1.
//! - `leaf_layout(bytes: &[u8]) -> u64`: packet size, or 0.
//! - `leaf_parse(bytes: &[u8], out: &mut [u64]) -> u64`: 0 and the 26 words of `packet_words`; 1 truncated, have and
//!   need; 2 bad sync, the byte.
//! - `leaf_feed(state: &mut [u64], payload: &[u8], start: u64, out: &mut [u64])`: `state` has 16 words of the library's
//!   own, all 0 at first; out: head, stamp + 1 or 0, rest, body.
//! - `leaf_fifo_new(rate: u64, state: &mut [f64])`, `leaf_fifo_push(state: &mut [f64], from: f64, to: f64, bytes: f64,
//!   out: &mut [f64])`: `state` is rate, end, busy since (-infinity for none), peak, longest; out: start and end.
//! - `leaf_record(report: &mut [u64], line: &[u64]) -> u64`: number; report and line as in the replay's boundary.
//! - `leaf_model(kind: u64, a: u64, b: u64, c: u64, out: &mut [u64]) -> u64`: kind 0 audio, 1 `video_low_main_level`,
//!   2 `video_high_level`; number; out: the five words of a stream behind its PID.

use crate::fuzz::Progress;
use crate::generate::{self, stamp_bytes};
use crate::rng::Rng;
use crate::rules;
use crate::words::*;
use oracle::leaves as theirs;
use oracle::tstd::*;
use oracle::{TsError, TsPacket};

pub const PACKET_WORDS: usize = 26;
const TICKS: u64 = (1 << 33) * 300;

#[cfg(feature = "leaves")]
mod boundary {
    unsafe extern "C" {
        pub fn leaf_extend_near(raw: u64, reference: u64, out: *mut u64, n: usize) -> u64;
        pub fn leaf_delta_ticks(a: u64, b: u64, out: *mut u64, n: usize) -> u64;
        pub fn leaf_optional_header(id: u8) -> u64;
        pub fn leaf_layout(bytes: *const u8, len: usize) -> u64;
        pub fn leaf_parse(bytes: *const u8, len: usize, out: *mut u64, n: usize) -> u64;
        pub fn leaf_feed(state: *mut u64, m: usize, payload: *const u8, len: usize, start: u64, out: *mut u64, n: usize);
        pub fn leaf_fifo_new(rate: u64, state: *mut f64, m: usize);
        pub fn leaf_fifo_push(state: *mut f64, m: usize, from: f64, to: f64, bytes: f64, out: *mut f64, n: usize);
        pub fn leaf_record(report: *mut u64, m: usize, line: *const u64, n: usize) -> u64;
        pub fn leaf_model(kind: u64, a: u64, b: u64, c: u64, out: *mut u64, n: usize) -> u64;
    }
}

/// Our library's leaves.
#[cfg(feature = "leaves")]
mod ours {
    use super::{PACKET_WORDS, boundary};

    // SAFETY, for each call here: every pair is a live slice of this process, and the library keeps none of them.

    pub fn extend_near(raw: u64, reference: u64) -> Option<(u64, u64)> {
        let mut out = [0];
        let number = unsafe { boundary::leaf_extend_near(raw, reference, out.as_mut_ptr(), 1) };
        Some((number, out[0]))
    }

    pub fn delta_ticks(a: u64, b: u64) -> Option<(u64, u64)> {
        let mut out = [0];
        let number = unsafe { boundary::leaf_delta_ticks(a, b, out.as_mut_ptr(), 1) };
        Some((number, out[0]))
    }

    pub fn optional_header(id: u8) -> Option<bool> {
        Some(unsafe { boundary::leaf_optional_header(id) } == 1)
    }

    pub fn layout(bytes: &[u8]) -> Option<u64> {
        Some(unsafe { boundary::leaf_layout(bytes.as_ptr(), bytes.len()) })
    }

    pub fn parse(bytes: &[u8]) -> Option<(u64, [u64; PACKET_WORDS])> {
        let mut out = [0; PACKET_WORDS];
        let case = unsafe { boundary::leaf_parse(bytes.as_ptr(), bytes.len(), out.as_mut_ptr(), out.len()) };
        Some((case, out))
    }

    pub fn feed(state: &mut [u64; 16], payload: &[u8], start: bool) -> Option<[u64; 4]> {
        let mut out = [0; 4];
        unsafe { boundary::leaf_feed(state.as_mut_ptr(), 16, payload.as_ptr(), payload.len(), start as u64, out.as_mut_ptr(), 4) };
        Some(out)
    }

    pub fn fifo_new(rate: u64) -> Option<[f64; 5]> {
        let mut state = [0.0; 5];
        unsafe { boundary::leaf_fifo_new(rate, state.as_mut_ptr(), 5) };
        Some(state)
    }

    pub fn fifo_push(state: &mut [f64; 5], from: f64, to: f64, bytes: f64) -> (f64, f64) {
        let mut out = [0.0; 2];
        unsafe { boundary::leaf_fifo_push(state.as_mut_ptr(), 5, from, to, bytes, out.as_mut_ptr(), 2) };
        (out[0], out[1])
    }

    pub fn record(report: &mut [u64], line: &[u64]) -> Option<u64> {
        Some(unsafe { boundary::leaf_record(report.as_mut_ptr(), report.len(), line.as_ptr(), line.len()) })
    }

    pub fn model(kind: u64, a: u64, b: u64, c: u64) -> Option<(u64, [u64; 5])> {
        let mut out = [0; 5];
        let number = unsafe { boundary::leaf_model(kind, a, b, c, out.as_mut_ptr(), 5) };
        Some((number, out))
    }
}

/// Nobody to ask.
#[cfg(not(feature = "leaves"))]
mod ours {
    use super::PACKET_WORDS;

    pub fn extend_near(_: u64, _: u64) -> Option<(u64, u64)> {
        None
    }

    pub fn delta_ticks(_: u64, _: u64) -> Option<(u64, u64)> {
        None
    }

    pub fn optional_header(_: u8) -> Option<bool> {
        None
    }

    pub fn layout(_: &[u8]) -> Option<u64> {
        None
    }

    pub fn parse(_: &[u8]) -> Option<(u64, [u64; PACKET_WORDS])> {
        None
    }

    pub fn feed(_: &mut [u64; 16], _: &[u8], _: bool) -> Option<[u64; 4]> {
        None
    }

    pub fn fifo_new(_: u64) -> Option<[f64; 5]> {
        None
    }

    pub fn fifo_push(_: &mut [f64; 5], _: f64, _: f64, _: f64) -> (f64, f64) {
        (0.0, 0.0)
    }

    pub fn record(_: &mut [u64], _: &[u64]) -> Option<u64> {
        None
    }

    pub fn model(_: u64, _: u64, _: u64, _: u64) -> Option<(u64, [u64; 5])> {
        None
    }
}

/// A parsed packet in words: PID, start, error, priority, scrambling, counter, payload's place and length, whether
/// there is an adaptation field; its length and flags; PCR base and extension, OPCR base and extension, countdown,
/// private data's place, each + 1, or 0 where it is not there; the data's length; whether there is an extension, its
/// length and three flags, ltw valid + 1, ltw offset, rate, splice type and DTS, each + 1.
pub fn packet_words(bytes: &[u8], p: &TsPacket) -> [u64; PACKET_WORDS] {
    let place = |part: &[u8]| part.as_ptr() as u64 - bytes.as_ptr() as u64;
    let mut w = [0; PACKET_WORDS];
    w[..6].copy_from_slice(&[
        p.pid as u64,
        p.payload_unit_start as u64,
        p.transport_error as u64,
        p.transport_priority as u64,
        p.transport_scrambling_control as u64,
        p.continuity_counter as u64,
    ]);
    w[6] = if p.payload.is_empty() { 188 } else { place(p.payload) };
    w[7] = p.payload.len() as u64;
    let Some(a) = &p.adaptation_field else { return w };
    let flags = [
        a.discontinuity_indicator,
        a.random_access_indicator,
        a.elementary_stream_priority_indicator,
        a.pcr_flag,
        a.opcr_flag,
        a.splicing_point_flag,
        a.transport_private_data_flag,
        a.adaptation_field_extension_flag,
    ];
    w[8] = 1;
    w[9] = a.length as u64;
    w[10] = flags.iter().fold(0, |n, f| n * 2 + *f as u64);
    w[11] = a.pcr_base.map_or(0, |x| x + 1);
    w[12] = a.pcr_extension.map_or(0, |x| x as u64 + 1);
    w[13] = a.opcr_base.map_or(0, |x| x + 1);
    w[14] = a.opcr_extension.map_or(0, |x| x as u64 + 1);
    w[15] = a.splice_countdown.map_or(0, |x| x as u8 as u64 + 1);
    w[16] = a.transport_private_data.map_or(0, |d| place(d) + 1);
    w[17] = a.transport_private_data.map_or(0, |d| d.len() as u64);
    if let Some(e) = &a.adaptation_field_extension {
        w[18] = 1;
        w[19] = e.length as u64;
        w[20] = 4 * e.ltw_flag as u64 + 2 * e.piecewise_rate_flag as u64 + e.seamless_splice_flag as u64;
        w[21] = e.ltw_valid_flag.map_or(0, |x| x as u64 + 1);
        w[22] = e.ltw_offset.map_or(0, |x| x as u64 + 1);
        w[23] = e.piecewise_rate.map_or(0, |x| x as u64 + 1);
        w[24] = e.splice_type.map_or(0, |x| x as u64 + 1);
        w[25] = e.dts_next_au.map_or(0, |x| x + 1);
    }
    w
}

/// The Rust's parse as a case and its words.
pub fn parsed(bytes: &[u8]) -> (u64, [u64; PACKET_WORDS]) {
    let mut w = [0; PACKET_WORDS];
    match TsPacket::parse(bytes) {
        Ok(p) => return (0, packet_words(bytes, &p)),
        Err(TsError::Truncated { have, need, .. }) => {
            w[..2].copy_from_slice(&[have as u64, need as u64]);
            (1, w)
        }
        Err(TsError::BadSyncByte(byte)) => {
            w[0] = byte as u64;
            (2, w)
        }
        Err(other) => unreachable!("the Rust answered {other}"),
    }
}

fn same<T: PartialEq + std::fmt::Debug>(what: impl Fn() -> String, ours: Option<T>, rust: T) -> Result<u64, String> {
    match ours {
        Some(ours) if ours != rust => Err(format!("leaves, {}: ours {ours:?}, the Rust {rust:?}", what())),
        Some(_) => Ok(1),
        None => Ok(0),
    }
}

fn near(rng: &mut Rng, edges: &[u64]) -> u64 {
    let edge = rng.pick(edges);
    edge.wrapping_add(rng.below(5)).wrapping_sub(2)
}

fn stamps(rng: &mut Rng) -> Result<u64, String> {
    let edges = [0, 1 << 32, 1 << 33, (1 << 33) + (1 << 32), 3 << 33, 1 << 42, 0u64.wrapping_sub(1 << 33), u64::MAX];
    let free = rng.next() >> rng.below(64);
    let raw = if rng.one_in(2) { near(rng, &edges) } else { free };
    let reference = match rng.below(3) {
        0 => near(rng, &edges),
        1 => rng.next() >> rng.below(64),
        _ => near(rng, &[raw, raw ^ 1 << 32, raw.wrapping_add(1 << 32), raw.wrapping_sub(1 << 32)]),
    };
    let rust = if reference < 0u64.wrapping_sub(1 << 33) { (0, oracle::clock::extend_near(raw, reference)) } else { (1, 0) };
    let ours = ours::extend_near(raw, reference).map(|(n, x)| if n == 0 { (0, x) } else { (n, 0) });
    same(|| format!("extend_near({raw}, {reference})"), ours, rust)
}

fn steps(rng: &mut Rng) -> Result<u64, String> {
    let edges = [0, TICKS / 2, TICKS, TICKS / 4, 1 << 63];
    let a = if rng.one_in(2) { near(rng, &edges) } else { rng.below(TICKS) };
    let b = match rng.below(3) {
        0 => near(rng, &edges),
        1 => near(rng, &[a.wrapping_add(TICKS / 2), a.wrapping_sub(TICKS / 2), a]),
        _ => rng.below(TICKS),
    };
    let pcr = |ticks_27mhz| oracle::clock::Pcr { ticks_27mhz };
    let rust = if a < TICKS && b < TICKS { (0, pcr(a).delta_ticks(pcr(b)) as u64) } else { (1, 0) };
    let ours = ours::delta_ticks(a, b).map(|(n, x)| if n == 0 { (0, x) } else { (n, 0) });
    same(|| format!("delta_ticks({a}, {b})"), ours, rust)
}

/// A packet whose adaptation field is mostly near the edge of what fits.
fn packet(rng: &mut Rng) -> Vec<u8> {
    let mut p = vec![0; if rng.one_in(50) { rng.size(0, 400) } else { 188 }];
    rng.fill(&mut p);
    if p.len() < 12 {
        return p;
    }
    if !rng.one_in(30) {
        p[0] = 0x47;
    }
    p[4] = if rng.one_in(3) { rng.size(0, 24) as u8 } else { rng.byte() % 190 };
    if rng.one_in(3) {
        p[5] = rng.byte() & rng.byte();
    }
    let private = 6 + 6 * ((p[5] >> 4 & 1) + (p[5] >> 3 & 1)) as usize + (p[5] >> 2 & 1) as usize;
    if p[5] & 2 != 0 && private < p.len() {
        p[private] = rng.size(0, 16) as u8;
        let extension = private + 1 + p[private] as usize;
        if extension < p.len() {
            p[extension] = rng.size(0, 14) as u8;
        }
    } else if private < p.len() {
        p[private] = rng.size(0, 14) as u8;
    }
    p
}

fn packets(rng: &mut Rng) -> Result<u64, String> {
    let p = packet(rng);
    let rust = parsed(&p);
    if p.len() >= 188 {
        let read = rules::parse(&p).map(|q| (q.pid as u64, q.start as u64, q.payload as u64, q.mark, q.pcr));
        let w = rust.1;
        let pcr = (w[11] > 0).then(|| (w[11] - 1) * 300 + w[12] - 1);
        let want = (rust.0 == 0).then_some((w[0], w[1], w[6], w[10] >= 128, pcr));
        same(|| format!("the rules' parse of {p:02x?}"), Some(read), want)?;
    }
    same(|| format!("parse {p:02x?}"), ours::parse(&p), rust)
}

fn layouts(rng: &mut Rng) -> Result<u64, String> {
    let (size, sync) = rng.pick(&generate::LAYOUTS);
    let count = rng.size(0, 10);
    let mut bytes = vec![rng.pick(&[0, 0x47]); count * size + rng.size(0, size - 1)];
    for k in 0..count {
        bytes[k * size + sync] = 0x47;
    }
    if rng.one_in(2) && !bytes.is_empty() {
        let at = rng.size(0, bytes.len() - 1);
        bytes[at] = 0;
        if count > 0 && rng.one_in(2) {
            bytes[rng.size(0, count - 1) * size + sync] = 0x46;
        }
    }
    let rust = oracle::packet::detect_packet_layout(&bytes).map_or(0, |l| l.packet_size as u64);
    let read = rules::layout(&bytes).map_or(0, |g| g.0 as u64);
    same(|| format!("the rules' layout of {} bytes", bytes.len()), Some(read), rust)?;
    same(|| format!("layout of {} bytes", bytes.len()), ours::layout(&bytes), rust)
}

/// Payloads of one stream, through units whose headers run over payloads.
fn scans(rng: &mut Rng) -> Result<u64, String> {
    let mut rust = theirs::Scanner::default();
    let mut state = [0; 16];
    let mut compared = 0;
    let mut runs = Vec::new();
    for _ in 0..rng.size(1, 12) {
        let length = if rng.one_in(2) { rng.size(1, 20) } else { rng.size(1, 184) };
        let mut payload = vec![0x80; length];
        rng.fill(&mut payload);
        let start = rng.one_in(3);
        if start && length >= 9 {
            payload[3] = rng.pick(&[0xe0, 0xc0, 0xbe, 0xf8]);
            payload[7] = rng.pick(&[0, 0x40, 0x80, 0xc0]);
            payload[8] = rng.pick(&[0, 4, 5, 9, 10, 14, 255]);
            if length >= 14 {
                payload[9..14].copy_from_slice(&stamp_bytes(2, rng.below(1 << 33)));
            }
        }
        rust.feed(&payload, start, &mut runs);
        let ours = ours::feed(&mut state, &payload, start).map(|[head, stamp, rest, body]| {
            let mut at = 0;
            let mut list = Vec::new();
            for (len, header, stamp) in [(head, true, stamp.checked_sub(1)), (rest, true, None), (body, false, None)] {
                if len > 0 {
                    list.push((at, len as usize, header, stamp));
                    at += len as usize;
                }
            }
            list
        });
        compared += same(|| format!("scan of {payload:02x?}, start {start}"), ours, runs.clone())?;
    }
    Ok(compared)
}

fn fifos(rng: &mut Rng) -> Result<u64, String> {
    let rate = rng.log(8e3, 1e9) as u64;
    let Some(mut state) = ours::fifo_new(rate) else { return Ok(0) };
    let mut rust = theirs::Fifo::new(rate);
    let mut at = -10.0 * rng.unit();
    let mut compared = 0;
    for _ in 0..rng.size(1, 20) {
        let to = at + rng.unit() * rng.pick(&[0.0, 1e-6, 1e-3, 0.2]);
        let bytes = rng.pick(&[0.0, 1.0, 4.0, 184.0, 188.0]);
        let out = ours::fifo_push(&mut state, at, to, bytes);
        let want = rust.push(at, to, bytes);
        let (done, since, peak, longest) = rust.state();
        let figures = |v: [f64; 6]| v.map(bits);
        let ours = figures([out.0, out.1, state[1], state[2], state[3], state[4]]);
        let theirs = figures([want.0, want.1, done, since.unwrap_or(f64::NEG_INFINITY), peak, longest]);
        compared += same(|| format!("FIFO at {rate} bit/s, {bytes} bytes from {at} to {to}"), Some(ours), theirs)?;
        at = to + rng.unit() * rng.pick(&[0.0, 0.0, 1e-6, 2e-6, 0.5]);
    }
    Ok(compared)
}

/// A line of any kind for one of few PIDs, with figures that merge in each direction.
fn line(rng: &mut Rng) -> theirs::Line {
    let kind = rng.below(9);
    let seconds = rng.pick(&[0.0, -0.0, 1.5, 2.5, -3.0, 1e5, f64::NAN]);
    let decode = rng.unit() * 100.0;
    [
        kind,
        if kind == 8 { 0 } else { rng.below(8) },
        if matches!(kind, 2 | 4) { rng.range(1, 4_000) } else { 0 },
        if matches!(kind, 3 | 6 | 7) { decode.to_bits() } else { 0 },
        if matches!(kind, 1 | 5 | 7) { seconds.to_bits() } else { rng.below(5_000) },
    ]
}

/// Every not-a-number is one word here: its bits are not promised.
fn leveled(report: &mut [u64]) {
    level_report(report);
    for line in report[4..].chunks_mut(LINE_WORDS) {
        if matches!(line[0], 1 | 5 | 7) && f64::from_bits(line[4]).is_nan() {
            line[4] = f64::NAN.to_bits();
        }
    }
}

fn records(rng: &mut Rng) -> Result<u64, String> {
    let mut rust = theirs::Report::default();
    let mut report = [0; REPORT_WORDS];
    let mut compared = 0;
    for _ in 0..rng.size(1, 120) {
        let line = line(rng);
        let before = rust.clone();
        rust.record(line);
        let number = if rust.lines().len() > 64 {
            rust = before;
            1
        } else {
            0
        };
        let Some(ours) = ours::record(&mut report, &line) else { return Ok(0) };
        let mut want = record_words(&rust);
        let mut got = report;
        leveled(&mut want);
        leveled(&mut got);
        compared += same(|| format!("record {line:?}"), Some((ours, got)), (number, want))?;
    }
    Ok(compared)
}

pub fn record_words(report: &theirs::Report) -> [u64; REPORT_WORDS] {
    let lines = report.lines();
    let mut words = [0; REPORT_WORDS];
    (words[0], words[3]) = (report.events(), lines.len() as u64);
    for (k, line) in lines.iter().enumerate() {
        words[4 + LINE_WORDS * k..4 + LINE_WORDS * (k + 1)].copy_from_slice(line);
    }
    words
}

fn models(rng: &mut Rng) -> Result<u64, String> {
    let kind = rng.below(3);
    let rate_edges = [8_000, 1_000_000_000, 15_000_000, 10_000_000];
    let size_edges = [1, 1 << 30, 229_376, 1_835_008];
    let rate = |rng: &mut Rng| if rng.one_in(2) { near(rng, &rate_edges) } else { rng.log(8e3, 1e9) as u64 };
    let size = |rng: &mut Rng| if rng.one_in(2) { near(rng, &size_edges) } else { rng.log(1.0, 1e9) as u64 };
    let rates = |x: u64| (8_000..=1_000_000_000).contains(&x);
    let sizes = |x: u64| (1..=1 << 30).contains(&x);
    let a = rate(rng);
    let (b, c) = if kind == 1 { (size(rng), size(rng)) } else { (rate(rng), size(rng)) };
    let (legal, model) = match kind {
        0 => (true, TStdStreamModel::audio()),
        1 => (rates(a) && sizes(b) && sizes(c), TStdStreamModel::video_low_main_level(a, b as usize, c as usize)),
        _ => (rates(a) && rates(b) && sizes(c), TStdStreamModel::video_high_level(a, b, c as usize)),
    };
    let words = match model.branch {
        TStdBranch::Main { buffer_size } => [model.rx_bps, 0, buffer_size as u64, 0, 0],
        TStdBranch::Video { rbx_bps, mb_size, eb_size } => [model.rx_bps, 1, rbx_bps, mb_size as u64, eb_size as u64],
        _ => unreachable!("a third branch"),
    };
    let rust = if legal { (0, words) } else { (1, [0; 5]) };
    let ours = ours::model(kind, a, b, c).map(|(n, w)| if n == 0 { (0, w) } else { (n, [0; 5]) });
    same(|| format!("constructor {kind} of {a}, {b}, {c}"), ours, rust)
}

/// A leaf's comparison: how many answers of one random input were compared.
type Leaf = fn(&mut Rng) -> Result<u64, String>;

pub fn run(seed: u64, count: u64) -> Result<(), String> {
    let asked = cfg!(feature = "leaves");
    println!("leaves: seed {seed}, {count} inputs each");
    if !asked {
        println!("  OUR LIBRARY IS NOT ASKED: build with --features leaves");
    }
    for id in 0..=255 {
        same(|| format!("optional header of {id:02x}"), ours::optional_header(id), theirs::has_optional_pes_header(id))?;
    }
    let leaves: [(&str, Leaf, u64); 8] = [
        ("parse", packets, 1),
        ("layout", layouts, 1),
        ("extend_near", stamps, 1),
        ("delta_ticks", steps, 1),
        ("scanner", scans, 2),
        ("FIFO", fifos, 2),
        ("record", records, 50),
        ("constructors", models, 1),
    ];
    for (k, (name, leaf, share)) in leaves.into_iter().enumerate().take(if asked { 8 } else { 2 }) {
        let mut progress = Progress::new("leaves", count / share);
        let mut compared = 0;
        for n in 0..count / share {
            let mut rng = Rng::new(seed.wrapping_add(n) ^ (k as u64) << 56);
            compared += leaf(&mut rng)?;
            progress.at(n);
        }
        let whose = if asked { format!("{compared} of our answers") } else { "the rules' reading".to_string() };
        println!("  {name}: {whose} on {} inputs, {:.1} s", count / share, progress.seconds());
    }
    Ok(())
}
