//! Random recordings and profiles inside the limits, weighted to the edges: rates, sizes and depths at both ends,
//! clock steps at both limits, wraps, marks, shared PIDs, three layouts, headers over packets, far stamps.

use crate::rng::Rng;
use crate::words::*;

pub const MODULUS: u64 = (1 << 33) * 300;
const STAMPS: u64 = 1 << 33;
pub const LAYOUTS: [(usize, usize); 3] = [(188, 0), (192, 4), (204, 0)];

#[derive(Clone)]
pub struct Case {
    pub words: [u64; PROFILE_WORDS],
    pub bytes: Vec<u8>,
}

impl Default for Case {
    fn default() -> Self {
        Case { words: [0; PROFILE_WORDS], bytes: Vec::new() }
    }
}

/// What a case is weighted to.
#[derive(Clone, Copy, PartialEq)]
pub enum Flavour {
    Mixed,
    /// Queue depths of 1 to 6 on a good clock: number 10.
    TinyQueues,
    /// Few packets: for the fixed list.
    Small,
}

/// Writes packets in one layout.
pub struct Writer<'a> {
    pub out: &'a mut Vec<u8>,
    pub layout: (usize, usize),
    pub filler: u8,
}

impl Writer<'_> {
    pub fn put(&mut self, packet: &[u8; 188], rng: &mut Rng) {
        let (size, sync) = self.layout;
        let from = self.out.len();
        self.out.resize(from + size, self.filler);
        self.out[from + sync..from + sync + 188].copy_from_slice(packet);
        if size != 188 && rng.one_in(4) {
            let (a, b) = if sync == 4 { (from, from + 4) } else { (from + 188, from + 204) };
            rng.fill(&mut self.out[a..b]);
        }
    }
}

/// A packet of 188 bytes with its header; `control` is the adaptation field control.
pub fn head(pid: u16, start: bool, control: u8, count: u8) -> [u8; 188] {
    let mut p = [0xff; 188];
    p[0] = 0x47;
    p[1] = (start as u8) << 6 | (pid >> 8) as u8;
    p[2] = pid as u8;
    p[3] = control << 4 | count & 15;
    p
}

/// Six bytes of a PCR: base and extension.
pub fn pcr_bytes(base: u64, extension: u64) -> [u8; 6] {
    let b = (base << 15 | 0x3f << 9 | extension).to_be_bytes();
    [b[2], b[3], b[4], b[5], b[6], b[7]]
}

/// Five bytes of a stamp behind a four-bit prefix.
pub fn stamp_bytes(prefix: u8, stamp: u64) -> [u8; 5] {
    [
        prefix << 4 | ((stamp >> 30) as u8 & 7) << 1 | 1,
        (stamp >> 22) as u8,
        ((stamp >> 15) as u8) << 1 | 1,
        (stamp >> 7) as u8,
        (stamp as u8) << 1 | 1,
    ]
}

/// A packet with nothing but a PCR in its adaptation field.
pub fn pcr_packet(pid: u16, ticks: u64, mark: bool) -> [u8; 188] {
    let mut p = head(pid, false, 2, 0);
    p[4] = 183;
    p[5] = 0x10 | (mark as u8) << 7;
    p[6..12].copy_from_slice(&pcr_bytes(ticks / 300, ticks % 300));
    p
}

/// The dials of one case.
struct Plan {
    /// Bytes a second of the arrival.
    slow: f64,
    fast: f64,
    gap: usize,
    marks: bool,
    fancy: bool,
    broken: bool,
    short: bool,
    stamps: u64,
    restart: u64,
    wild_stamps: bool,
    /// Every stamp lies a second or more ahead, so that units wait.
    far_stamps: bool,
    packets: usize,
    limits: bool,
}

fn plan(rng: &mut Rng, flavour: Flavour) -> Plan {
    let (slow, fast) = match rng.below(12) {
        0..=3 => (1_010.0, 4_000.0),
        4..=5 => (2_000.0, 20_000.0),
        6..=7 => (20_000.0, 2_000_000.0),
        8 => (1_000_000.0, 9e8),
        9 => (1_010.0, 9e8),
        _ => {
            let r = rng.log(1_010.0, 5e6);
            (r, r * 1.2)
        }
    };
    let packets = match flavour {
        Flavour::Small => rng.size(3, 14),
        _ => match rng.below(200) {
            0..=59 => rng.size(2, 14),
            60..=179 => rng.size(8, 60),
            180..=197 => rng.size(60, 250),
            _ => rng.size(250, 1500),
        },
    };
    Plan {
        slow,
        fast,
        gap: rng.pick(&[1, 2, 3, 4, 6, 8, 12, 20, 40]).min(packets.div_ceil(3)),
        marks: rng.percent(15),
        fancy: rng.percent(15),
        broken: flavour == Flavour::Mixed && rng.percent(20),
        short: rng.percent(20),
        stamps: rng.pick(&[40, 70, 90, 100]),
        restart: rng.pick(&[3, 8, 20, 60]),
        wild_stamps: rng.percent(12),
        far_stamps: rng.percent(if flavour == Flavour::TinyQueues { 50 } else { 5 }),
        packets,
        limits: rng.percent(8),
    }
}

fn rate(rng: &mut Rng, near: f64) -> u64 {
    let free = match rng.below(10) {
        0 => return 8_000,
        1 => return 1_000_000_000,
        2 => return rng.pick(&[8_001, 999_999_999, 64_000, 2_000_000, 15_000_000]),
        3..=7 => near * 8.0 * rng.log(0.2, 8.0),
        _ => rng.log(8e3, 1e9),
    };
    free.clamp(8e3, 1e9) as u64
}

fn size(rng: &mut Rng) -> u64 {
    match rng.below(10) {
        0 => rng.range(1, 3),
        1 => rng.pick(&[1, 2, 183, 184, 185, 188, 512, 1 << 30, (1 << 30) - 1]),
        2..=3 => rng.range(1, 200),
        4..=6 => rng.range(100, 3_000),
        7 => 3_584,
        _ => rng.log(1.0, 1e9) as u64,
    }
}

fn profile(rng: &mut Rng, plan: &Plan, flavour: Flavour) -> Profile {
    let pool = [0u16, 1, 256, 257, 258, 259, 260, 261, 4096, 8190, 8191, rng.below(8192) as u16];
    let streams = match rng.below(10) {
        0 => 0,
        1..=4 => rng.size(1, 2),
        5..=8 => rng.size(2, 4),
        _ => rng.size(5, 8),
    };
    let near = (plan.slow * plan.fast).sqrt();
    let videos = rng.pick(&[0u64, 50, 50, 50, 100]);
    let mut p = Profile { pcr_pid: rng.pick(&[256, 256, 256, 256, 300, 0, 8191]), ..Profile::default() };
    for k in 0..streams {
        let pid = if rng.percent(85) { 257 + k as u16 - u16::from(rng.one_in(6)) } else { rng.pick(&pool) };
        let rx = rate(rng, near);
        let branch = if rng.percent(videos) {
            let rbx = if rng.percent(30) { (rx / 2).max(8_000) } else { rate(rng, near) };
            Branch::Video { rbx, mb: size(rng), eb: size(rng) }
        } else {
            Branch::Main { size: size(rng) }
        };
        p.streams.push(Stream { pid, rx, branch });
    }
    let system = match rng.below(8) {
        0..=2 => 0,
        3..=6 => rng.size(1, 3),
        _ => rng.size(4, 16),
    };
    for k in 0..system {
        p.system.push(if rng.percent(80) { [0, 1, 4096, 17][k % 4] } else { rng.pick(&pool) });
    }
    p.queue_depth = match (flavour, rng.below(40)) {
        (Flavour::TinyQueues, _) => rng.size(1, 6),
        (Flavour::Small, _) => rng.pick(&[4, 32, 128]),
        (_, 0..=5) => rng.size(1, 4),
        (_, 6..=15) => rng.size(5, 40),
        (_, 16..=37) => rng.size(64, 200),
        (_, 38) => rng.size(200, 2_000),
        _ => {
            if rng.one_in(8) {
                8_192
            } else {
                512
            }
        }
    };
    p.clock_depth = match rng.below(20) {
        0 => 3_000,
        1..=3 => rng.size(2, 20),
        _ => rng.size(60, 400),
    };
    p
}

/// An elementary stream while it is written: the unit's bytes that are still to come.
#[derive(Default, Clone)]
struct Units {
    header: Vec<u8>,
    content: usize,
    count: u8,
}

/// The clock while packets are written.
struct Time {
    ticks: u64,
    packet: usize,
    rate: f64,
}

impl Time {
    fn stamp(&self, packet: usize) -> u64 {
        let since = (packet - self.packet) as f64 * 188.0 / self.rate;
        self.ticks / 300 + (since * 90_000.0) as u64
    }
}

struct Maker<'r> {
    rng: &'r mut Rng,
    plan: Plan,
    time: Time,
}

impl Maker<'_> {
    /// A stamp for a unit that begins in this packet.
    fn stamp(&mut self, packet: usize) -> u64 {
        let now = self.time.stamp(packet);
        let rng = &mut *self.rng;
        let second = 90_000;
        let later = |ticks: u64| now.wrapping_add(ticks);
        let kind = match (self.plan.far_stamps, self.plan.wild_stamps) {
            (true, _) => 13,
            (_, true) => rng.below(20),
            _ => rng.below(15),
        };
        let stamp = match kind {
            0..=5 => later(rng.below(second)),
            6..=7 => later(rng.below(second / 5)),
            8 => later(second + rng.range(0, 4)).wrapping_sub(2),
            9..=10 => later(rng.range(second, 3 * second)),
            11 => now.wrapping_sub(rng.below(second)),
            12 => later(rng.below(4)),
            13 => later(rng.range(second, 40 * second)),
            14 => later(rng.below(second / 2)),
            15 => rng.below(STAMPS),
            16 => later(STAMPS / 2 + rng.range(0, 4)).wrapping_sub(2),
            17 => rng.pick(&[0, STAMPS - 1, 1]),
            18 => later(rng.below(STAMPS / 2)),
            _ => now.wrapping_sub(rng.below(STAMPS / 2)),
        };
        stamp % STAMPS
    }

    fn unit(&mut self, u: &mut Units, packet: usize) {
        let stamp = self.stamp(packet);
        let other = self.stamp(packet);
        let rng = &mut *self.rng;
        let stamped = rng.percent(self.plan.stamps);
        let id =
            if rng.one_in(12) { rng.pick(&[0xbc, 0xbe, 0xbf, 0xf0, 0xf1, 0xff, 0xf2, 0xf8, 0xbd, 0xfd]) } else { rng.pick(&[0xe0, 0xc0]) };
        let flags: u8 = match (stamped, rng.below(3)) {
            (true, 0) => 0xc0,
            (true, _) => 0x80,
            (false, 0) => 0x40,
            (false, _) => 0,
        } | (rng.byte() & 0x3f) * u8::from(rng.one_in(8));
        let wants = match flags >> 6 {
            2 => 5,
            3 => 10,
            _ => 0,
        };
        let length: usize = match rng.below(12) {
            0 => rng.size(0, 12),
            1 => rng.pick(&[0, 4, 5, 9, 10, 255]),
            2 => wants + rng.size(0, 30),
            3 => rng.size(0, 255),
            _ => wants,
        };
        u.header.clear();
        u.header.extend([0, 0, 1, id, 0, 0, 0x80, flags, length as u8]);
        u.header.resize(9 + length, 0xff);
        if wants == 10 && length >= 10 {
            u.header[9..14].copy_from_slice(&stamp_bytes(3, other));
            u.header[14..19].copy_from_slice(&stamp_bytes(1, stamp));
        } else if wants > 0 && length >= 5 {
            u.header[9..14].copy_from_slice(&stamp_bytes(2, stamp));
        }
        if rng.one_in(40) {
            rng.fill(&mut u.header);
        }
        u.content = match rng.below(8) {
            0 => 0,
            1 => rng.size(1, 10),
            2..=4 => rng.size(1, 400),
            _ => rng.size(100, 2_000),
        };
    }

    /// The length byte of an adaptation field, or none, that leaves about the payload wanted.
    fn field_length(&mut self, payload: usize) -> Option<usize> {
        match payload {
            184.. => None,
            0 => Some(183),
            n => Some(183 - n),
        }
    }

    /// Fills an adaptation field of this length: flags, PCR if any, at times further parts, whole or cut.
    fn field(&mut self, p: &mut [u8; 188], length: usize, pcr: Option<[u8; 6]>, mark: bool) {
        p[4] = length as u8;
        if length == 0 {
            return;
        }
        let end = (5 + length).min(188);
        let mut flags = (mark as u8) << 7 | (pcr.is_some() as u8) << 4;
        let mut at = 6;
        if let Some(b) = pcr
            && at + 6 <= end
        {
            p[at..at + 6].copy_from_slice(&b);
            at += 6;
        }
        let rng = &mut *self.rng;
        if self.plan.fancy && rng.percent(40) {
            let cut = self.plan.broken && rng.one_in(4);
            flags |= rng.byte() & 0x60;
            for (bit, length) in [(8u8, 6usize), (4, 1), (2, rng.size(1, 20)), (1, rng.size(1, 14))] {
                if !rng.percent(30) || (at + length > end && !cut) {
                    continue;
                }
                flags |= bit;
                if at < end {
                    p[at] = match bit {
                        2 => (length - 1) as u8 + u8::from(cut),
                        1 => (length - 1) as u8,
                        _ => rng.byte(),
                    };
                }
                if bit == 1 && at + 1 < end {
                    p[at + 1] = match length {
                        ..=3 => 0x1f,
                        4..=5 => rng.pick(&[0x80, 0x40]),
                        6..=11 => rng.pick(&[0xc0, 0x20, 0xe0]),
                        _ => rng.byte(),
                    };
                }
                at += length;
            }
        }
        p[5] = flags;
    }

    /// One packet of a stream.
    fn stream_packet(&mut self, u: &mut Units, pid: u16, packet: usize, pcr: Option<[u8; 6]>, mark: bool) -> [u8; 188] {
        let fresh = (u.header.is_empty() && u.content == 0) || self.rng.one_in(self.plan.restart);
        let mut start = false;
        if fresh && !self.rng.one_in(12) {
            self.unit(u, packet);
            start = true;
        }
        let whole = if pcr.is_some() || mark { 176 } else { 184 };
        let left = u.header.len() + u.content;
        let payload = if self.plan.short && self.rng.percent(60) {
            self.rng.size(0, 24)
        } else if self.rng.one_in(30) {
            self.rng.size(0, whole)
        } else if left > 0 && self.rng.percent(80) {
            left.min(whole)
        } else {
            whole
        };
        let length = self.field_length(payload);
        u.count = u.count.wrapping_add(1);
        let control = match (length, payload) {
            (None, _) => 1,
            (Some(_), 0) => self.rng.pick(&[2, 3]),
            (Some(_), _) => 3,
        };
        let mut p = head(pid, start, control, u.count);
        if let Some(length) = length {
            self.field(&mut p, length, pcr, mark);
        }
        let body = &mut p[188 - payload..];
        body.fill(0x55);
        let from_header = u.header.len().min(payload);
        body[..from_header].copy_from_slice(&u.header[..from_header]);
        u.header.drain(..from_header);
        u.content = u.content.saturating_sub(payload - from_header);
        p
    }

    /// A PCR packet on a PID that no stream has.
    fn clock_packet(&mut self, pid: u16, pcr: Option<[u8; 6]>, mark: bool) -> [u8; 188] {
        let rng = &mut *self.rng;
        let (control, length) = match rng.below(4) {
            0 => (3, rng.size(8, 183)),
            1 => (2, rng.size(8, 183)),
            _ => (2, 183),
        };
        let mut p = head(pid, rng.one_in(4), control, 0);
        let length = if pcr.is_some() { length } else { length.max(1) };
        self.field(&mut p, length, pcr, mark);
        p
    }

    /// Ticks from one PCR to the next, `packets` later.
    fn step(&mut self, packets: usize) -> u64 {
        let bytes = 188 * packets as u64;
        let rng = &mut *self.rng;
        if self.plan.limits && rng.one_in(3) {
            let slowest = bytes * 27_000;
            let fastest = (bytes * 27).div_ceil(1_000);
            return match rng.below(8) {
                0 => slowest,
                1 => slowest + 1,
                2 => fastest.saturating_sub(1).max(1),
                3 => fastest,
                4 => fastest + 1,
                _ => slowest - rng.range(1, 3),
            };
        }
        let rate = rng.log(self.plan.slow, self.plan.fast);
        ((bytes as f64 * 27e6 / rate) as u64).max((bytes * 27).div_ceil(1_000))
    }
}

/// What is wrong with a case's clock, at one sample.
#[derive(PartialEq)]
enum Fault {
    None,
    Repeated,
    Backwards,
    Slow,
    Fast,
    EarlyMark,
    TooFew,
}

fn fault(rng: &mut Rng, flavour: Flavour) -> Fault {
    let likely = match flavour {
        Flavour::TinyQueues => return Fault::None,
        Flavour::Mixed => 8,
        Flavour::Small => 20,
    };
    if !rng.percent(likely) {
        return Fault::None;
    }
    match rng.below(6) {
        0 => Fault::Repeated,
        1 => Fault::Backwards,
        2 => Fault::Slow,
        3 => Fault::Fast,
        4 => Fault::EarlyMark,
        _ => Fault::TooFew,
    }
}

fn first_ticks(rng: &mut Rng) -> u64 {
    match rng.below(10) {
        0..=1 => MODULUS - rng.below(200_000_000),
        2 => 0,
        3 => MODULUS / 2 - rng.below(100_000_000),
        4 => MODULUS - 1 - rng.below(400),
        5..=6 => rng.below(MODULUS),
        _ => rng.below(27_000_000_000),
    }
}

/// One random case; equal seeds give equal cases.
pub fn case(rng: &mut Rng, flavour: Flavour, out: &mut Case) {
    let plan = plan(rng, flavour);
    let profile = profile(rng, &plan, flavour);
    recording(rng, plan, &profile, flavour, out);
}

/// A random recording for this profile, of at most so many packets.
pub fn for_profile(rng: &mut Rng, profile: &Profile, most: usize, out: &mut Case) {
    let mut plan = plan(rng, Flavour::Mixed);
    plan.packets = plan.packets.min(most);
    recording(rng, plan, profile, Flavour::Mixed, out);
}

fn recording(rng: &mut Rng, plan: Plan, profile: &Profile, flavour: Flavour, out: &mut Case) {
    let fault = fault(rng, flavour);
    let layout = LAYOUTS[[0, 0, 0, 0, 1, 2][rng.below(6) as usize]];
    let filler = rng.pick(&[0, 0x47, 0xff]);
    let ticks = first_ticks(rng) % MODULUS;
    let first_at = if rng.percent(80) { 0 } else { rng.size(0, plan.packets / 2) };
    let others = rng.pick(&[0u64, 10, 30, 60]);
    let idle = rng.pick(&[0u64, 5, 30]);
    let focus = rng.one_in(3);
    out.bytes.clear();
    out.words = profile.words();

    let mut m = Maker { rng, plan, time: Time { ticks, packet: 0, rate: 1e5 } };
    let mut units = vec![Units::default(); profile.streams.len()];
    let mut writer = Writer { out: &mut out.bytes, layout, filler };
    let mut samples = 0;
    let mut next = first_at;
    let mut ahead = 0;
    let mut waiting_mark = false;
    let enough = if fault == Fault::TooFew { m.rng.size(0, 1) } else { usize::MAX };
    let bad_sample = m.rng.size(1, 4);
    for k in 0..m.plan.packets {
        let due = k == next && samples < enough;
        let mut pcr = None;
        let mut mark = false;
        if due {
            let mut raw = (m.time.ticks + ahead) % MODULUS;
            let fault_here = samples == bad_sample;
            match fault {
                Fault::Repeated if fault_here => raw = m.time.ticks % MODULUS,
                Fault::Backwards if fault_here => raw = m.time.ticks.wrapping_sub(m.rng.range(1, 1_000)) % MODULUS,
                Fault::Slow if fault_here => {
                    raw = (m.time.ticks + 188 * 27_000 * (k - m.time.packet) as u64 + m.rng.range(2, 90_000)) % MODULUS
                }
                Fault::Fast if fault_here => raw = (m.time.ticks + m.rng.range(1, 4)) % MODULUS,
                Fault::EarlyMark if samples == 1 => mark = true,
                _ => {}
            }
            if m.plan.marks && samples != 1 && m.rng.one_in(4) {
                mark = true;
            }
            if (mark || waiting_mark) && samples != 0 && m.rng.percent(80) {
                raw = first_ticks(m.rng) % MODULUS;
            }
            let extended = m.rng.one_in(60) && raw >= 511;
            let (base, extension) = if extended { ((raw - 300) / 300, (raw - 300) % 300 + 300) } else { (raw / 300, raw % 300) };
            pcr = Some(pcr_bytes(base, extension.min(511)));
            samples += 1;
            waiting_mark = false;
            let gap = m.rng.size(1, m.plan.gap);
            ahead = m.step(gap);
            m.time = Time { ticks: raw, packet: k, rate: 188.0 * gap as f64 * 27e6 / ahead as f64 };
            next = k + gap;
        } else if m.plan.marks && samples > 1 && m.rng.one_in(30) {
            mark = true;
        }
        let p = if due || mark {
            waiting_mark |= mark && !due;
            match profile.streams.iter().position(|s| s.pid == profile.pcr_pid) {
                Some(s) => m.stream_packet(&mut units[s], profile.pcr_pid, k, pcr, mark),
                None => m.clock_packet(profile.pcr_pid, pcr, mark),
            }
        } else {
            ordinary(&mut m, profile, &mut units, k, others, idle, focus)
        };
        writer.put(&p, m.rng);
    }
    finish(m.rng, profile, samples, layout, flavour, out);
}

/// A packet that carries no clock.
fn ordinary(m: &mut Maker, profile: &Profile, units: &mut [Units], k: usize, others: u64, idle: u64, focus: bool) -> [u8; 188] {
    if m.rng.percent(idle) {
        return head(8191, false, 1, 0);
    }
    if m.plan.broken && m.rng.one_in(12) {
        let pid = profile.streams.first().map_or(256, |s| s.pid);
        let control = m.rng.pick(&[0, 2, 3]);
        let mut p = head(pid, m.rng.one_in(2), control, 0);
        p[4] = m.rng.byte();
        if m.rng.one_in(2) {
            p[5] = m.rng.byte();
        }
        if k >= 8 && m.rng.one_in(3) {
            p[0] = m.rng.byte();
        }
        return p;
    }
    if units.is_empty() || m.rng.percent(others) {
        let pid = if profile.system.is_empty() || m.rng.one_in(6) { m.rng.below(8192) as u16 } else { m.rng.pick(&profile.system) };
        if !profile.streams.iter().any(|s| s.pid == pid) {
            let mut p = head(pid, m.rng.one_in(3), 1, 0);
            if m.rng.one_in(4) {
                m.rng.fill(&mut p[4..]);
            }
            return p;
        }
    }
    if units.is_empty() {
        return head(8191, false, 1, 0);
    }
    let s = if focus { 0 } else { m.rng.below(units.len() as u64) as usize };
    m.stream_packet(&mut units[s], profile.streams[s].pid, k, None, false)
}

/// Remainders, damage, words that don't count, and a clock depth at the number of samples.
fn finish(rng: &mut Rng, profile: &Profile, samples: usize, (size, sync): (usize, usize), flavour: Flavour, out: &mut Case) {
    if rng.percent(30) {
        let more = if size == 204 && rng.one_in(2) { rng.size(188, 203) } else { rng.size(1, size - 1) };
        let from = out.bytes.len();
        out.bytes.resize(from + more, 0x47);
        if sync == 0 && more >= 188 {
            let p = out.bytes[from - 204..from - 16].to_vec();
            out.bytes[from..from + 188].copy_from_slice(&p);
        }
    }
    if flavour == Flavour::Mixed && rng.percent(8) {
        for _ in 0..rng.size(1, 10) {
            let at = rng.below(out.bytes.len() as u64) as usize;
            if at % size != sync || rng.one_in(8) {
                out.bytes[at] = if rng.one_in(2) { rng.byte() } else { out.bytes[at] ^ 1 << rng.below(8) };
            }
        }
    }
    if flavour != Flavour::TinyQueues && rng.percent(1) {
        let at = sync + size * rng.size(0, 7);
        if at < out.bytes.len() {
            out.bytes[at] = rng.byte();
        }
    }
    if rng.percent(15) {
        let depth = (samples + rng.size(0, 2)).saturating_sub(usize::from(rng.one_in(3)));
        out.words[4] = depth.clamp(2, 3_000) as u64;
    }
    if rng.one_in(4) {
        let wild = rng.pick(&[u64::MAX, 8_192, 1 << 40, 2]);
        for k in 0..MAX_STREAMS {
            let at = STREAMS_AT + k * STREAM_WORDS;
            if k >= profile.streams.len() {
                out.words[at..at + STREAM_WORDS].fill(wild);
            } else if out.words[at + 2] == 0 {
                out.words[at + 4..at + 6].fill(wild);
            }
        }
        out.words[SYSTEM_AT + profile.system.len()..].fill(wild);
    }
}

/// A recording of some hundred packets whose report has all 51 lines: eight video streams, each too slow and too
/// small, a burst and then a slow stretch on the system PIDs.
pub fn all_keys(rng: &mut Rng, out: &mut Case) {
    let mut p = Profile { pcr_pid: 256, queue_depth: 64, clock_depth: 8, ..Profile::default() };
    for k in 0..8 {
        let branch = Branch::Video { rbx: 8_000, mb: rng.range(1, 50), eb: rng.range(1, 3) };
        p.streams.push(Stream { pid: 300 + 7 * k + rng.below(7) as u16, rx: 8_000, branch });
    }
    p.system = vec![rng.below(256) as u16];
    out.bytes.clear();
    let mut w = Writer { out: &mut out.bytes, layout: rng.pick(&LAYOUTS), filler: 0 };
    let start = rng.below(MODULUS);
    w.put(&pcr_packet(256, start, false), rng);
    let mut burst: Vec<(u16, u64)> = Vec::new();
    for s in &p.streams {
        burst.extend((0..10).map(|k| (s.pid, k)));
    }
    burst.extend((0..12).map(|k| (p.system[0], k)));
    let count = burst.len() + 1;
    let now = start / 300;
    for (pid, k) in burst {
        let first = k == 0 || k == 9;
        let mut packet = head(pid, first && pid >= 300, 1, k as u8);
        if first && pid >= 300 {
            let stamp = (now + if k == 0 { 9_000 } else { 270_000 + rng.below(9_000) }) % STAMPS;
            packet[4..13].copy_from_slice(&[0, 0, 1, 0xe0, 0, 0, 0x80, 0x80, 5]);
            packet[13..18].copy_from_slice(&stamp_bytes(2, stamp));
        }
        w.put(&packet, rng);
    }
    let second = (start + 27 * 188 * count as u64) % MODULUS;
    w.put(&pcr_packet(256, second, false), rng);
    for _ in 0..8 {
        w.put(&head(p.system[0], false, 1, 0), rng);
    }
    w.put(&pcr_packet(256, (second + 188 * 9 * 26_000) % MODULUS, false), rng);
    out.words = p.words();
}
