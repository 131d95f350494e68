//! Looks for recordings of 1 MB for which our call takes longer than the Rust's: each kind of packet alone and random
//! mixtures of them, in all layouts, with few and many streams at the deepest queues, whose zeroing weighs most.

use crate::bench::{self, Input};
use crate::expect;
use crate::ffi::Memory;
use crate::generate::{LAYOUTS, Writer, head, pcr_packet, stamp_bytes};
use crate::rng::Rng;
use crate::words::*;
use std::time::Duration;

const SECOND: u64 = 27_000_000;
const BYTES: usize = 1_000_000;
/// Bytes a second of the arrival.
const RATE: u64 = 4_000_000;
/// What a second and longer look is taken at.
const NEAR: f64 = 0.8;

/// A packet that carries no clock. A stream is one of the profile's, drawn for each packet.
#[derive(Clone, Copy, Debug, PartialEq)]
enum Kind {
    /// PID 8191.
    Null,
    /// One PID of nobody.
    Other,
    /// Any PID of nobody.
    Others,
    /// A PID of nobody, with an adaptation field.
    OtherField,
    /// The same with all parts of a field: PCR, OPCR, countdown, private data, extension.
    OtherParts,
    System,
    /// A stream's payload without a unit start.
    Content,
    /// A few bytes of it behind an adaptation field.
    Short,
    /// A stream's adaptation field alone.
    NoPayload,
    /// A stream's payload behind a field with all parts.
    Parts,
    /// A stream's unit begins, with a stamp.
    Stamped,
    /// The same without a stamp.
    Unstamped,
    /// The same with a header that the packet does not end.
    LongHeader,
    /// No sync byte: not parsed.
    BadSync,
    /// An adaptation field that ends behind the packet: not parsed.
    Overlong,
}

const PARSED: [Kind; 13] = [
    Kind::Null,
    Kind::Other,
    Kind::Others,
    Kind::OtherField,
    Kind::OtherParts,
    Kind::System,
    Kind::Content,
    Kind::Short,
    Kind::NoPayload,
    Kind::Parts,
    Kind::Stamped,
    Kind::Unstamped,
    Kind::LongHeader,
];

const UNPARSED: [Kind; 2] = [Kind::BadSync, Kind::Overlong];

/// What a recording is made of, and its profile.
struct Plan {
    kinds: Vec<Kind>,
    streams: u16,
    /// The first of them are video streams.
    videos: u16,
    /// 0, 3 or 16.
    system: usize,
    /// Packets from a PCR to the next.
    gap: usize,
    layout: (usize, usize),
    rx: u64,
    rbx: u64,
    eb: u64,
    /// Ticks of 90 kHz from a stamp's packet to its decode time.
    ahead: u64,
}

impl Plan {
    fn alone(kind: Kind, streams: u16, videos: u16) -> Self {
        let layout = LAYOUTS[0];
        Plan {
            kinds: vec![kind],
            streams,
            videos,
            system: 3,
            gap: 40,
            layout,
            rx: 48_000_000,
            rbx: 40_000_000,
            eb: 1_250_000,
            ahead: 18_000,
        }
    }

    fn random(rng: &mut Rng, from: &[Kind]) -> Self {
        let streams = rng.pick(&[0, 1, 2, 4, 8, 8]);
        Plan {
            kinds: (0..rng.size(1, 4)).map(|_| rng.pick(from)).collect(),
            streams,
            videos: rng.below(streams as u64 + 1) as u16,
            system: rng.pick(&[0, 3, 16]),
            gap: rng.pick(&[2, 5, 40, 40, 400, 2_000]),
            layout: rng.pick(&LAYOUTS),
            rx: rng.pick(&[4_000_000, 48_000_000]),
            rbx: rng.pick(&[4_000_000, 40_000_000]),
            eb: rng.pick(&[2, 1_000, 1_250_000]),
            ahead: rng.pick(&[0, 18_000, 450_000]),
        }
    }

    fn profile(&self) -> Profile {
        let system = (0..self.system as u16).map(|k| 16 + k).collect();
        let mut p = Profile { pcr_pid: 256, queue_depth: 8_192, clock_depth: 3_000, system, ..Profile::default() };
        for k in 0..self.streams {
            let video = Branch::Video { rbx: self.rbx, mb: 26_000, eb: self.eb };
            let branch = if k < self.videos { video } else { Branch::Main { size: 100_000 } };
            p.streams.push(Stream { pid: 300 + k, rx: self.rx, branch });
        }
        p
    }

    fn packet(&self, kind: Kind, k: usize, now: u64, rng: &mut Rng) -> [u8; 188] {
        let pid = 300 + rng.below(self.streams.max(1) as u64) as u16;
        let unit = |header: &[u8]| {
            let mut p = head(pid, true, 1, k as u8);
            p[4..4 + header.len()].copy_from_slice(header);
            p
        };
        match kind {
            Kind::Null => head(8191, false, 1, 0),
            Kind::Other => head(500, false, 1, k as u8),
            Kind::Others => head(1_000 + rng.below(3_000) as u16, false, 1, k as u8),
            Kind::OtherField => field(head(500 + (k % 3) as u16, false, 3, k as u8), 1),
            Kind::OtherParts => parts(head(500 + (k % 3) as u16, false, 3, k as u8)),
            Kind::Parts => parts(head(pid, false, 3, k as u8)),
            Kind::System => head(16 + (k % self.system.max(1)) as u16, false, 1, k as u8),
            Kind::Content => head(pid, false, 1, k as u8),
            Kind::Short => field(head(pid, false, 3, k as u8), 183 - (k % 20) as u8),
            Kind::NoPayload => field(head(pid, false, 2, k as u8), 183),
            Kind::Stamped => {
                let stamp = stamp_bytes(2, (now / 300 + self.ahead) % (1 << 33));
                unit(&[&[0, 0, 1, 0xe0, 0, 0, 0x80, 0x80, 5][..], &stamp].concat())
            }
            Kind::Unstamped => unit(&[0, 0, 1, 0xe0, 0, 0, 0x80, 0, 0]),
            Kind::LongHeader => unit(&[0, 0, 1, 0xe0, 0, 0, 0x80, 0, 255]),
            Kind::BadSync => {
                let mut p = head(500, false, 1, k as u8);
                p[0] = if k < 8 { 0x47 } else { 0 };
                p
            }
            Kind::Overlong => field(head(pid, false, 3, k as u8), 200),
        }
    }

    fn input(&self, rng: &mut Rng) -> Input {
        let mut bytes = Vec::new();
        let mut w = Writer { out: &mut bytes, layout: self.layout, filler: 0 };
        for k in 0..BYTES.div_ceil(self.layout.0) {
            let now = k as u64 * 188 * SECOND / RATE;
            let kind = rng.pick(&self.kinds);
            let packet = if k % self.gap == 0 { pcr_packet(256, now, false) } else { self.packet(kind, k, now, rng) };
            w.put(&packet, rng);
        }
        let name = format!(
            "{:?}, layout {}, PCR every {}, rx {}, Rbx {}, EB {}, stamps {} ahead",
            self.kinds, self.layout.0, self.gap, self.rx, self.rbx, self.eb, self.ahead
        );
        Input { name, bytes, profile: self.profile() }
    }
}

fn field(mut packet: [u8; 188], length: u8) -> [u8; 188] {
    (packet[4], packet[5]) = (length, 0);
    packet
}

/// An adaptation field of 40 bytes with every part that table 2-6 has: PCR, OPCR, splice_countdown, four bytes of
/// private data and an extension with its three fields.
fn parts(mut packet: [u8; 188]) -> [u8; 188] {
    (packet[4], packet[5]) = (40, 0x1f);
    packet[6..18].fill(0);
    packet[18] = 5;
    (packet[19], packet[20]) = (4, 0);
    (packet[24], packet[25]) = (11, 0xe0);
    packet
}

struct Search {
    m: Memory,
    budget: Duration,
    timed: u32,
    refused: u32,
    /// Our time over the Rust's, and the line that says so, of those near it.
    near: Vec<(f64, String)>,
    /// The greatest of them when a plain fill of the same work is left out of our time.
    unfilled: f64,
}

impl Search {
    fn new() -> Self {
        let budget = Duration::from_millis(40);
        Search { m: Memory::default(), budget, timed: 0, refused: 0, near: Vec::new(), unfilled: 0.0 }
    }

    /// Times a recording that both sides accept, and again for longer if our time is near the Rust's.
    fn time(&mut self, x: &Input) -> Result<(), String> {
        let lent = Lengths::exact(x.profile.needed());
        if expect::expected(&x.bytes, &x.profile.words(), lent)?.answer != 0 {
            self.refused += 1;
            return Ok(());
        }
        let t = bench::alternate(x, &mut self.m, 20, self.budget)?;
        self.timed += 1;
        if t.ours > NEAR * t.rust {
            let t = bench::alternate(x, &mut self.m, 20, 15 * self.budget)?;
            let unfilled = (t.ours - bench::fill(&mut self.m)) / t.rust;
            self.unfilled = self.unfilled.max(unfilled);
            self.near.push((t.ours / t.rust, format!("{}; {unfilled:.2} less a plain fill", bench::line(x, &t))));
        }
        Ok(())
    }

    /// The recordings nearest to the Rust's time or over it; the greatest ratio.
    fn show(&mut self, what: &str) -> f64 {
        self.near.sort_by(|a, b| b.0.total_cmp(&a.0));
        let over = self.near.iter().filter(|x| x.0 > 1.0).count();
        println!(
            "  {what}: {} timed ({} refused ones left out), {} at over {NEAR} of the Rust's time, {over} over the Rust's",
            self.timed,
            self.refused,
            self.near.len()
        );
        if over > 0 {
            println!("  less a plain fill of the work none takes over {:.2} of the Rust's time", self.unfilled);
        }
        for (_, line) in self.near.iter().take(8) {
            println!("    {line}");
        }
        self.near.first().map_or(0.0, |x| x.0)
    }
}

/// Fails if a recording of packets that parse takes longer than with the Rust. Those of packets that do not parse are
/// shown apart, since there the zeroing alone can take longer than the Rust's whole call: less a plain fill of the same
/// work none may take longer.
pub fn run(seed: u64, count: u64) -> Result<(), String> {
    println!("slowest: recordings of {BYTES} bytes and up to a packet more, seed {seed}; both sides in turn, the least of the runs");
    let mut rng = Rng::new(seed);
    let mut parsed = Search::new();
    let mut unparsed = Search::new();
    for (streams, videos) in [(0, 0), (1, 1), (2, 1), (8, 8), (8, 0)] {
        for kind in PARSED {
            parsed.time(&Plan::alone(kind, streams, videos).input(&mut rng))?;
        }
        for kind in UNPARSED {
            unparsed.time(&Plan::alone(kind, streams, videos).input(&mut rng))?;
        }
    }
    for _ in 0..count {
        parsed.time(&Plan::random(&mut rng, &PARSED).input(&mut rng))?;
    }
    let all = [&PARSED[..], &UNPARSED].concat();
    for _ in 0..count / 4 {
        let mut plan = Plan::random(&mut rng, &all);
        plan.kinds.push(rng.pick(&UNPARSED));
        unparsed.time(&plan.input(&mut rng))?;
    }
    unparsed.show("packets that do not parse among them");
    let worst = parsed.show("packets that parse").max(unparsed.unfilled);
    if worst > 1.0 {
        return Err(format!("slowest: a recording takes {worst:.2} of the Rust's time"));
    }
    Ok(())
}
