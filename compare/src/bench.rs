//! The Rust and our library in one process on the same bytes, in turn, the least of many runs. Our call zeroes the
//! work that it is lent; that is part of its time and is also timed apart. Every figure names depth and streams.

use crate::expect;
use crate::ffi::{self, Call, Memory};
use crate::generate::{Writer, head, pcr_packet, stamp_bytes};
use crate::rng::Rng;
use crate::rules;
use crate::rust;
use crate::streams;
use crate::words::*;
use oracle::tstd::analyze_tstd;
use std::hint::black_box;
use std::time::{Duration, Instant};

const SECOND: u64 = 27_000_000;

pub struct Input {
    pub name: String,
    pub bytes: Vec<u8>,
    pub profile: Profile,
}

fn video(pid: u16, rx: u64, rbx: u64, mb: u64, eb: u64) -> Stream {
    Stream { pid, rx, branch: Branch::Video { rbx, mb, eb } }
}

/// Stamped units on `videos` video PIDs, one audio PID if there is one, system packets and a PCR every 40 packets.
fn made_up(megabytes: usize, videos: u16, audio: bool, queue_depth: usize) -> Input {
    let mut p = Profile { pcr_pid: 256, queue_depth, clock_depth: 3_000, system: vec![0, 1, 4096], ..Profile::default() };
    p.streams.extend((0..videos).map(|k| video(300 + k, 24_000_000, 20_000_000, 26_000, 1_250_000)));
    if audio {
        p.streams.push(Stream { pid: 400, rx: 2_000_000, branch: Branch::Main { size: 3_584 } });
    }
    let mut bytes = Vec::new();
    let mut rng = Rng::new(megabytes as u64);
    let mut w = Writer { out: &mut bytes, layout: (188, 0), filler: 0 };
    let rate = 2_000_000 * videos.max(1) as u64;
    for k in 0..(megabytes << 20) / 188 {
        let now = k as u64 * 188 * SECOND / rate;
        let packet = if k % 40 == 0 {
            pcr_packet(256, now, false)
        } else if k % 200 == 7 {
            head(4096, true, 1, 0)
        } else {
            let pid = if audio && k % 20 == 3 { 400 } else { 300 + (k as u16) % videos.max(1) };
            let start = rng.one_in(if pid == 400 { 4 } else { 60 });
            let mut packet = head(pid, start, 1, k as u8);
            if start {
                packet[4..13].copy_from_slice(&[0, 0, 1, 0xe0, 0, 0, 0x80, 0x80, 5]);
                let ahead = if pid == 400 { 9_000 } else { 27_000 };
                packet[13..18].copy_from_slice(&stamp_bytes(2, (now / 300 + ahead) % (1 << 33)));
            }
            packet
        };
        w.put(&packet, &mut rng);
    }
    Input { name: format!("made-up, {megabytes} MB"), bytes, profile: p }
}

/// Packets of one PID that is in neither list, and a PCR every 40 packets: no packet of the streams, whose work is
/// zeroed all the same.
fn no_stream(megabytes: usize, videos: u16, queue_depth: usize, pid: u16) -> Input {
    let mut input = made_up(megabytes, videos, false, queue_depth);
    for (k, packet) in input.bytes.chunks_exact_mut(188).enumerate() {
        if k % 40 != 0 {
            packet.copy_from_slice(&head(pid, false, 1, k as u8));
        }
    }
    input.name = format!("packets of PID {pid}, {megabytes} MB");
    input
}

/// The same without a PCR: both sides refuse it behind their first pass.
fn refused(megabytes: usize, videos: u16, queue_depth: usize) -> Input {
    let mut input = no_stream(megabytes, videos, queue_depth, 8191);
    for packet in input.bytes.chunks_exact_mut(188) {
        packet.copy_from_slice(&head(8191, false, 1, 0));
    }
    input.name = format!("null packets without a PCR, refused by 5, {megabytes} MB");
    input
}

/// Units on video PIDs as in `made_up`, but a share of the packets has lost its sync byte and does not parse.
fn without_sync(megabytes: usize, videos: u16, percent: u64) -> Input {
    let mut input = made_up(megabytes, videos, false, 8_192);
    let mut rng = Rng::new(percent);
    for (k, packet) in input.bytes.chunks_exact_mut(188).enumerate() {
        if k >= 8 && k % 40 != 0 && rng.percent(percent) {
            packet[0] = 0;
        }
    }
    input.name = format!("made-up, {percent} % of the packets without a sync byte, {megabytes} MB");
    input
}

/// Recordings with packets that do not parse, which the Rust passes over in next to no time.
pub fn unparsed_inputs() -> Vec<Input> {
    let shares = [1, 25, 50, 75, 90, 100];
    let one = [1, 2, 3, 4, 8].into_iter().flat_map(|videos| shares.map(|percent| (1, videos, percent)));
    let all = one.chain([(2, 8, 100), (3, 8, 100), (4, 8, 100), (16, 8, 100)]);
    all.map(|(megabytes, videos, percent)| without_sync(megabytes, videos, percent)).collect()
}

/// These beside a plain fill of the work that our call zeroes.
fn unparsed(m: &mut Memory, budget: Duration) -> Result<(), String> {
    for input in unparsed_inputs() {
        let t = alternate(&input, m, 5, budget)?;
        let filled = fill(m) * 1e9 / (input.bytes.len() / 188) as f64;
        println!("  {}; a plain fill of the work {filled:.1}", line(&input, &t));
    }
    Ok(())
}

/// Header bytes only into an EB of two bytes: about a turn of the leak a byte. The one payload byte waits in the
/// transport buffer behind a burst and is removed when `stamp` says; removed just as it begins to come in, it leaves
/// room for little more than one byte from then on.
fn header_only(megabytes: usize, stamp: u64, rbx: u64, name: &str) -> Input {
    let mut p = Profile { pcr_pid: 256, queue_depth: 8_192, clock_depth: 3_000, ..Profile::default() };
    p.streams.push(video(300, 9_000, rbx, 1 << 30, 2));
    let mut bytes = Vec::new();
    let mut rng = Rng::new(1);
    let mut w = Writer { out: &mut bytes, layout: (188, 0), filler: 0 };
    let burst = 40 * 188 * 27;
    for k in 0..(megabytes << 20) / 188 {
        let packet = match k {
            0 => pcr_packet(256, 0, false),
            _ if k % 40 == 0 => pcr_packet(256, burst + (k as u64 - 40) * 188 * SECOND / 1_010, false),
            37 => short_unit(stamp, 1),
            38 => short_unit((1 << 32) - 1, 0),
            0..40 => head(8191, false, 1, 0),
            _ => {
                let mut packet = head(300, true, 1, k as u8);
                packet[4..13].copy_from_slice(&[0, 0, 1, 0xe0, 0, 0, 0x80, 0, 255]);
                packet
            }
        };
        w.put(&packet, &mut rng);
    }
    Input { name: format!("{name}, {megabytes} MB"), bytes, profile: p }
}

/// A packet of PID 300 that ends with a stamped header and this many payload bytes.
fn short_unit(stamp: u64, payload: usize) -> [u8; 188] {
    let mut packet = head(300, true, 3, 0);
    let unit = 174 - payload;
    (packet[4], packet[5]) = (unit as u8 - 5, 0);
    packet[unit..unit + 9].copy_from_slice(&[0, 0, 1, 0xe0, 0, 0, 0x80, 0x80, 5]);
    packet[unit + 9..unit + 14].copy_from_slice(&stamp_bytes(2, stamp));
    packet
}

/// Least seconds of the Rust and of a library.
#[derive(Clone, Copy)]
pub struct Times {
    pub rust: f64,
    pub ours: f64,
    pub runs: u32,
}

/// Both sides in turn, for at least `least` runs and about `budget`.
pub fn alternate(input: &Input, m: &mut Memory, least: u32, budget: Duration) -> Result<Times, String> {
    in_turn(input, [("bench", ffi::replay)], m, least, budget).map(|[t]| t)
}

/// The Rust and several libraries in turn on the same memory. Each has a word for messages. They change places from run
/// to run, since the first behind the Rust finds the memory colder.
pub fn in_turn<const N: usize>(
    input: &Input,
    libraries: [(&str, Call); N],
    m: &mut Memory,
    least: u32,
    budget: Duration,
) -> Result<[Times; N], String> {
    let words = input.profile.words();
    agree(input, &words, &libraries, m)?;
    let config = rust::config(&input.profile);
    let mut t = [Times { rust: f64::INFINITY, ours: f64::INFINITY, runs: 0 }; N];
    let (mut rust, mut runs) = (f64::INFINITY, 0);
    let begun = Instant::now();
    while runs < least || begun.elapsed() < budget {
        let start = Instant::now();
        let report = analyze_tstd(black_box(&input.bytes), black_box(&config));
        rust = start.elapsed().as_secs_f64().min(rust);
        drop(black_box(report));
        for k in 0..N {
            let which = (k + runs as usize) % N;
            let start = Instant::now();
            black_box(libraries[which].1(black_box(&input.bytes), black_box(&words), m));
            t[which].ours = start.elapsed().as_secs_f64().min(t[which].ours);
        }
        runs += 1;
    }
    Ok(t.map(|t| Times { rust, runs, ..t }))
}

/// That each library gives what the Rust and the rules demand.
fn agree(input: &Input, words: &[u64], libraries: &[(&str, Call)], m: &mut Memory) -> Result<(), String> {
    let lent = Lengths::exact(input.profile.needed());
    let want = expect::expected(&input.bytes, words, lent)?;
    for (name, replay) in libraries {
        if want.answer != 0 && !input.name.contains("refused") {
            return Err(format!("{name}, {}: {}", input.name, answer_text(want.answer)));
        }
        m.prepare(lent, 1);
        expect::check_call(*replay, &input.bytes, words, m, &want).map_err(|e| format!("{name}, {}: {e}", input.name))?;
    }
    Ok(())
}

pub fn packets(bytes: &[u8]) -> usize {
    bytes.len() / rules::layout(bytes).map_or(188, |g| g.0)
}

pub fn line(input: &Input, t: &Times) -> String {
    let packets = packets(&input.bytes) as f64;
    format!(
        "{}: Rust {:.1} ns a packet, ours {:.1}, ours/Rust {:.2} ({} packets, {} runs each; {})",
        input.name,
        t.rust * 1e9 / packets,
        t.ours * 1e9 / packets,
        t.ours / t.rust,
        packets,
        t.runs,
        input.profile.about()
    )
}

fn show(input: &Input, t: &Times) {
    println!("  {}", line(input, t));
}

/// Least seconds of a plain fill of the lent work.
pub fn fill(m: &mut Memory) -> f64 {
    let mut least = f64::INFINITY;
    for _ in 0..200 {
        let start = Instant::now();
        black_box(m.times.get_mut()).fill(0);
        black_box(m.places.get_mut()).fill(0);
        least = least.min(start.elapsed().as_secs_f64());
    }
    least
}

/// Recordings under 1 MB, whose time the zeroing of deep queues outweighs.
pub fn shorter_inputs() -> Vec<Input> {
    let mut inputs = Vec::new();
    for (queue_depth, videos) in [(128, 1), (128, 8), (8_192, 1), (8_192, 8)] {
        for packets in [100, 1_000] {
            let mut input = made_up(1, videos, videos == 1, queue_depth);
            input.bytes.truncate(packets * 188);
            input.name = format!("made-up, {packets} packets");
            inputs.push(input);
        }
    }
    inputs
}

/// These with the zeroing, and less a plain fill of the same work.
fn shorter(m: &mut Memory, budget: Duration) -> Result<(), String> {
    println!("  shorter recordings, made up; a call of ours with the zeroing, and less a plain fill:");
    for input in shorter_inputs() {
        let t = alternate(&input, m, 50, budget)?;
        let without = t.ours - fill(m);
        println!(
            "    {} packets: Rust {:.1} µs, ours {:.1} µs, less the fill {:.1} µs ({})",
            packets(&input.bytes),
            t.rust * 1e6,
            t.ours * 1e6,
            without * 1e6,
            input.profile.about()
        );
    }
    Ok(())
}

/// Zeroing apart: the same memory filled by this program, and our call on two packets that it refuses by 5 after it
/// has zeroed the work.
fn zeroing(m: &mut Memory) {
    println!("  zeroing the work, least of 200:");
    let mut two = vec![0u8; 376];
    (two[0], two[188]) = (0x47, 0x47);
    for (queue_depth, streams) in [(128, 2), (128, 8), (8_192, 2), (8_192, 8)] {
        let mut p = Profile { pcr_pid: 256, queue_depth, clock_depth: 3_000, ..Profile::default() };
        p.streams.extend((0..streams).map(|k| video(300 + k, 8_000_000, 8_000_000, 1_000, 1_000)));
        let needed = p.needed();
        m.prepare(Lengths::exact(needed), 1);
        let words = p.words();
        let filled = fill(m);
        let mut call = f64::INFINITY;
        for _ in 0..200 {
            let start = Instant::now();
            black_box(ffi::replay(black_box(&two), black_box(&words), m));
            call = call.min(start.elapsed().as_secs_f64());
        }
        println!(
            "    queue depth {queue_depth}, {streams} streams, clock depth 3000: {} bytes, a plain fill {:.1} µs, our refused call {:.1} µs",
            8 * (needed.times + needed.places),
            filled * 1e6,
            call * 1e6
        );
    }
}

/// In megabytes.
pub fn sizes(quick: bool) -> &'static [usize] {
    if quick { &[1] } else { &[1, 4, 16] }
}

pub fn parsed_inputs(sizes: &[usize]) -> Vec<Input> {
    let mut inputs = Vec::new();
    for depth in [128, 8_192] {
        inputs.extend(sizes.iter().map(|n| made_up(*n, 1, true, depth)));
    }
    inputs.extend(sizes.iter().map(|n| made_up(*n, 8, false, 8_192)));
    for (megabytes, videos) in [(1, 2), (1, 6), (1, 7), (1, 8), (2, 8), (4, 8)] {
        inputs.push(no_stream(megabytes, videos, 8_192, 8191));
    }
    inputs.extend([6, 7, 8].map(|videos| no_stream(1, videos, 8_192, 500)));
    inputs.push(no_stream(2, 8, 8_192, 500));
    inputs.extend([2, 8].map(|videos| refused(1, videos, 8_192)));
    inputs
}

/// The longer real streams, whole and cut; none if they are not there.
pub fn real_inputs(sizes: &[usize]) -> Vec<Input> {
    let mut inputs = Vec::new();
    for real in streams::all().unwrap_or_default().into_iter().filter(|r| r.bytes.len() > 2_000_000) {
        let mut cuts: Vec<usize> = sizes.iter().map(|n| n << 20).filter(|n| *n < real.bytes.len()).collect();
        cuts.push(real.bytes.len());
        for cut in cuts {
            let name = format!("{}, first {cut} bytes", real.name);
            inputs.push(Input { name, bytes: real.bytes[..cut].to_vec(), profile: real.profile.clone() });
        }
    }
    inputs
}

pub fn header_inputs(sizes: &[usize]) -> Vec<Input> {
    // The first tick at which the payload byte has begun to come into EB; a tick earlier it blocks EB for good.
    let stamps = [(1_000_000_000, 15_586), (8_000_000, 15_587)];
    let named = |(rbx, stamp)| header_only(sizes[sizes.len() - 1], stamp, rbx, &format!("EB of 2 bytes, headers only, Rbx {rbx} bit/s"));
    stamps.map(named).into()
}

pub fn run(quick: bool) -> Result<(), String> {
    println!("bench: both sides in one process, in turn, the least of the runs. Recordings, work, row and report were");
    println!("touched before the first timed run; nothing is cleared between runs but what our call itself zeroes.");
    let mut m = Memory::default();
    let budget = Duration::from_millis(if quick { 300 } else { 3_000 });
    let sizes = sizes(quick);
    for input in parsed_inputs(sizes) {
        show(&input, &alternate(&input, &mut m, 5, budget)?);
    }
    unparsed(&mut m, budget)?;
    for input in real_inputs(sizes) {
        show(&input, &alternate(&input, &mut m, 5, budget)?);
    }
    for input in header_inputs(sizes) {
        show(&input, &alternate(&input, &mut m, 3, budget)?);
    }
    shorter(&mut m, budget / 4)?;
    zeroing(&mut m);
    Ok(())
}
