//! Document 01's refusals, read a second time: limits, lengths, layout, the clock's samples and a plain replay with
//! queues that have a depth. It follows the Rust's steps as far as the queues and a chain's figures need them and
//! keeps no report; the row that it works out is held to the Rust's, so that its queues are those of the Rust.

use crate::words::*;
use std::collections::VecDeque;

const MODULUS: u64 = (1 << 33) * 300;
const SECOND: f64 = 27_000_000.0;

/// Which push met a full queue.
#[derive(Clone, Copy, Debug, PartialEq)]
pub enum Queue {
    Unit,
    Run,
    Mark,
    /// A unit at the final closing.
    LastUnit,
}

pub enum Verdict {
    Refused { answer: u64, queue: Option<Queue> },
    Accepted { samples: usize, row: Vec<u64>, seen: Seen },
}

/// Places that an accepted replay may come by.
#[derive(Clone, Copy)]
pub enum Place {
    Layout192,
    Layout204,
    Remainder,
    Unparsed,
    Marked,
    Wrap,
    RepeatedPid,
    SharedPid,
    ThreeRuns,
    LongHeader,
    CutHeader,
    FullEb,
    FillingEb,
    FarStamp,
}

pub const PLACES: [&str; 14] = [
    "layout 192",
    "layout 204",
    "a remainder",
    "an unparsed packet",
    "a marked PCR",
    "a wrap of the PCR",
    "a repeated stream PID",
    "a PID in both lists",
    "three runs in a packet",
    "a header over packets",
    "a unit cut in its header",
    "a full EB",
    "an EB that fills on the way",
    "a decode time over 1000 s off",
];

/// How often a replay came by each place. It decides nothing.
#[derive(Clone, Copy, Default)]
pub struct Seen(pub [u32; PLACES.len()]);

impl Seen {
    fn note(&mut self, place: Place, here: bool) {
        self.0[place as usize] += u32::from(here);
    }
}

fn refused(number: u64, place: u64, pid: u16) -> Verdict {
    Verdict::Refused { answer: answer(number, place, pid as u64), queue: None }
}

/// The profile that the words say, or nothing where number 1 is due.
pub fn profile(words: &[u64]) -> Option<Profile> {
    let pid = |w: u64| (w <= 8191).then_some(w as u16);
    let rate = |w: u64| (8_000..=1_000_000_000).contains(&w).then_some(w);
    let size = |w: u64| (1..=1_073_741_824).contains(&w).then_some(w);
    if words.len() != PROFILE_WORDS || words[1] > 8 || words[2] > 16 {
        return None;
    }
    if !(1..=8192).contains(&words[3]) || !(2..=3000).contains(&words[4]) {
        return None;
    }
    let mut streams = Vec::new();
    for k in 0..words[1] as usize {
        let w = &words[5 + 6 * k..11 + 6 * k];
        let branch = match w[2] {
            0 => Branch::Main { size: size(w[3])? },
            1 => Branch::Video { rbx: rate(w[3])?, mb: size(w[4])?, eb: size(w[5])? },
            _ => return None,
        };
        streams.push(Stream { pid: pid(w[0])?, rx: rate(w[1])?, branch });
    }
    let system = words[53..53 + words[2] as usize].iter().map(|w| pid(*w)).collect::<Option<_>>()?;
    Some(Profile { pcr_pid: pid(words[0])?, queue_depth: words[3] as usize, clock_depth: words[4] as usize, streams, system })
}

/// Packet size and place of the sync byte.
pub fn layout(bytes: &[u8]) -> Option<(usize, usize)> {
    [(188, 0), (192, 4), (204, 0)].into_iter().find(|&(size, sync)| {
        let whole = bytes.len() / size;
        whole >= 2 && (0..whole.min(8)).all(|k| bytes[k * size + sync] == 0x47)
    })
}

pub fn windows(bytes: &[u8], (size, sync): (usize, usize)) -> impl Iterator<Item = &[u8]> {
    bytes.chunks_exact(size).map(move |c| &c[sync..sync + 188])
}

/// What a parsed packet says.
#[derive(Clone, Copy, Debug, PartialEq)]
pub struct Packet {
    pub pid: u16,
    pub start: bool,
    /// Where the payload begins; 188 if there is none.
    pub payload: usize,
    pub mark: bool,
    pub pcr: Option<u64>,
}

/// Table 2-2 and as much of Table 2-6 as decides whether a packet parses.
pub fn parse(p: &[u8]) -> Option<Packet> {
    if p[0] != 0x47 {
        return None;
    }
    let control = p[3] >> 4 & 3;
    let mut at = 4;
    let (mut mark, mut pcr) = (false, None);
    if control >= 2 {
        let end = 5 + p[4] as usize;
        if end > 188 {
            return None;
        }
        if p[4] > 0 {
            let flags = p[5];
            mark = flags & 0x80 != 0;
            pcr = adaptation(&p[..end], flags)?;
        }
        at = end;
    }
    Some(Packet {
        pid: (p[1] as u16 & 31) << 8 | p[2] as u16,
        start: p[1] & 0x40 != 0,
        payload: if control % 2 == 1 { at } else { 188 },
        mark,
        pcr,
    })
}

/// Whether the fields that the flags announce fit, and the PCR among them. The outer `None` is a failed parse.
fn adaptation(field: &[u8], flags: u8) -> Option<Option<u64>> {
    let mut at = 6;
    let mut pcr = None;
    for bit in [0x10, 0x08] {
        if flags & bit != 0 {
            let b = field.get(at..at + 6)?;
            let base = b[..4].iter().fold(0, |n, x| n << 8 | *x as u64) * 2 + (b[4] >> 7) as u64;
            if bit == 0x10 {
                pcr = Some(base * 300 + (b[4] as u64 % 2) * 256 + b[5] as u64);
            }
            at += 6;
        }
    }
    if flags & 4 != 0 {
        field.get(at)?;
        at += 1;
    }
    if flags & 2 != 0 {
        let n = *field.get(at)? as usize;
        at += 1 + n;
        if at > field.len() {
            return None;
        }
    }
    if flags & 1 != 0 {
        let n = *field.get(at)? as usize;
        let body = field.get(at + 1..at + 1 + n)?;
        if let Some(parts) = body.first() {
            let wants: usize = [(0x80, 2), (0x40, 3), (0x20, 5)].iter().filter(|(bit, _)| parts & bit != 0).map(|(_, n)| n).sum();
            if 1 + wants > n {
                return None;
            }
        }
    }
    Some(pcr)
}

/// PCR samples on the PCR PID: position, raw value, mark.
fn samples(bytes: &[u8], grid: (usize, usize), pcr_pid: u16) -> Vec<(u64, u64, bool)> {
    let mut found = Vec::new();
    let mut waiting = false;
    for (k, window) in windows(bytes, grid).enumerate() {
        if let Some(p) = parse(window).filter(|p| p.pid == pcr_pid) {
            waiting |= p.mark;
            if let Some(raw) = p.pcr {
                found.push((188 * k as u64 + 10, raw, waiting));
                waiting = false;
            }
        }
    }
    found
}

#[derive(Clone, Copy)]
struct Interval {
    position: u64,
    time: f64,
    rate: f64,
    offset: f64,
    reference: u64,
}

/// The intervals of constant rate, or the refusal 6, 7 or 9 with its sample.
fn intervals(samples: &[(u64, u64, bool)], seen: &mut Seen) -> Result<Vec<Interval>, (u64, u64)> {
    let mut out: Vec<Interval> = Vec::new();
    let mut time = 0.0;
    let mut base = samples[0].1;
    for k in 1..samples.len() {
        let (from, to) = (samples[k - 1].0, samples[k].0);
        let (_, raw, marked) = samples[k];
        let bytes = (to - from) as f64;
        let (rate, lasts, next);
        if marked {
            rate = out.last().ok_or((6, k as u64))?.rate;
            lasts = bytes / rate;
            next = raw;
            seen.note(Place::Marked, true);
        } else {
            let step = (raw + MODULUS - base % MODULUS) % MODULUS;
            if step == 0 {
                return Err((7, k as u64));
            }
            lasts = step as f64 / SECOND;
            rate = bytes / lasts;
            next = base + step;
            seen.note(Place::Wrap, base / MODULUS != next / MODULUS);
        }
        if !(1000.0..=1_000_000_000.0).contains(&rate) {
            return Err((9, k as u64));
        }
        out.push(Interval { position: from, time, rate, offset: time - base as f64 / SECOND, reference: base / 300 });
        time += lasts;
        base = next;
    }
    Ok(out)
}

struct Clock {
    intervals: Vec<Interval>,
    at: usize,
}

impl Clock {
    fn time(&mut self, position: u64) -> f64 {
        while self.at + 1 < self.intervals.len() && self.intervals[self.at + 1].position <= position {
            self.at += 1;
        }
        let i = self.intervals[self.at];
        if position < i.position {
            i.time - (i.position - position) as f64 / i.rate
        } else {
            i.time + (position - i.position) as f64 / i.rate
        }
    }

    fn decode(&self, stamp: u64) -> f64 {
        let i = self.intervals[self.at];
        let epoch = i.reference >> 33;
        let candidates = [epoch.checked_sub(1), Some(epoch), Some(epoch + 1)];
        let near = candidates.into_iter().flatten().map(|e| (e << 33) + stamp).min_by_key(|c| c.abs_diff(i.reference));
        near.unwrap() as f64 / 90_000.0 + i.offset
    }
}

/// The fluid FIFO; `since` counts only once something was pushed.
struct Fifo {
    rate: f64,
    done: f64,
    peak: f64,
}

impl Fifo {
    fn new(bps: u64) -> Self {
        Fifo { rate: bps as f64 / 8.0, done: f64::NEG_INFINITY, peak: 0.0 }
    }

    fn push(&mut self, from: f64, to: f64, bytes: f64) -> (f64, f64) {
        let start = self.done.max(from);
        let end = to.max(start + bytes / self.rate);
        self.peak = self.peak.max((end - to) * self.rate);
        self.done = end;
        (start, end)
    }
}

/// A queue of a chain. `full` is document 01's number 10.
struct Bounded<T> {
    items: VecDeque<T>,
    depth: usize,
}

impl<T> Bounded<T> {
    fn new(depth: usize) -> Self {
        Bounded { items: VecDeque::new(), depth }
    }

    fn push(&mut self, item: T, queue: Queue) -> Result<(), Queue> {
        if self.items.len() == self.depth {
            return Err(queue);
        }
        self.items.push_back(item);
        Ok(())
    }
}

struct Run {
    from: f64,
    to: f64,
    bytes: f64,
}

struct Unit {
    decode: f64,
    bytes: f64,
    input: f64,
}

struct Inflow {
    runs: Bounded<Run>,
    settled: f64,
}

impl Inflow {
    fn by(&mut self, t: f64) -> f64 {
        while self.runs.items.front().is_some_and(|r| r.to <= t) {
            self.settled += self.runs.items.pop_front().unwrap().bytes;
        }
        let mut total = self.settled;
        for r in self.runs.items.iter().take_while(|r| r.from < t) {
            let span = r.to - r.from;
            let part = if span <= 0.0 { 1.0 } else { ((t - r.from) / span).clamp(0.0, 1.0) };
            total += r.bytes * part;
        }
        total
    }

    /// When the byte that makes `target` has come in.
    fn when(&self, target: f64) -> Option<f64> {
        let mut sum = self.settled;
        if target <= sum {
            return Some(self.runs.items.front().map_or(f64::NEG_INFINITY, |r| r.from));
        }
        for r in &self.runs.items {
            if target <= sum + r.bytes {
                return Some(r.from + (r.to - r.from) * ((target - sum) / r.bytes));
            }
            sum += r.bytes;
        }
        None
    }
}

struct Video {
    rbx: f64,
    eb: f64,
    marks: Bounded<(f64, f64)>,
    queued: f64,
    transferred: f64,
    eb_in: f64,
    eb_removed: f64,
    clock: f64,
    eb_peak: f64,
}

struct Chain {
    pid: u16,
    tb: Fifo,
    inflow: Inflow,
    units: Bounded<Unit>,
    required: f64,
    removed: f64,
    peak: f64,
    count: u64,
    delay: f64,
    open: Option<Unit>,
    /// The unit's first bytes while its header is read, and the header bytes still to come.
    started: bool,
    head: Vec<u8>,
    sizing: bool,
    header_left: usize,
    video: Option<Video>,
    seen: Seen,
}

/// A run of a payload: its end, whether it is header, its stamp.
struct Piece {
    end: usize,
    header: bool,
    stamp: Option<u64>,
}

impl Chain {
    fn new(s: &Stream, depth: usize) -> Self {
        let video = match s.branch {
            Branch::Main { .. } => None,
            Branch::Video { rbx, eb, .. } => Some(Video {
                rbx: rbx as f64 / 8.0,
                eb: eb as f64,
                marks: Bounded::new(depth),
                queued: 0.0,
                transferred: 0.0,
                eb_in: 0.0,
                eb_removed: 0.0,
                clock: f64::NEG_INFINITY,
                eb_peak: 0.0,
            }),
        };
        Chain {
            pid: s.pid,
            tb: Fifo::new(s.rx),
            inflow: Inflow { runs: Bounded::new(depth), settled: 0.0 },
            units: Bounded::new(depth),
            required: 0.0,
            removed: 0.0,
            peak: 0.0,
            count: 0,
            delay: 0.0,
            open: None,
            started: false,
            head: Vec::new(),
            sizing: false,
            header_left: 0,
            video,
            seen: Seen::default(),
        }
    }

    fn scan(&mut self, payload: &[u8], start: bool) -> Vec<Piece> {
        if start {
            self.seen.note(Place::CutHeader, self.sizing || self.header_left > 0);
            self.started = true;
            self.sizing = true;
            self.header_left = 0;
            self.head.clear();
        }
        let mut pieces = Vec::new();
        let mut at = 0;
        if !self.started {
            return pieces;
        }
        if self.sizing {
            let mut stamp = None;
            while at < payload.len() && self.sizing {
                self.head.push(payload[at]);
                at += 1;
                if let Some((found, left)) = header(&self.head) {
                    stamp = found;
                    self.header_left = left;
                    self.sizing = false;
                }
            }
            pieces.push(Piece { end: at, header: true, stamp });
        }
        let rest = self.header_left.min(payload.len() - at);
        if rest > 0 {
            at += rest;
            self.header_left -= rest;
            pieces.push(Piece { end: at, header: true, stamp: None });
        }
        if at < payload.len() {
            pieces.push(Piece { end: payload.len(), header: false, stamp: None });
        }
        self.seen.note(Place::ThreeRuns, pieces.len() == 3);
        self.seen.note(Place::LongHeader, self.sizing || self.header_left > 0);
        pieces
    }

    fn take(&mut self, window: &[u8], p: Packet, from: f64, to: f64, clock: &Clock) -> Result<(), Queue> {
        self.remove(from);
        if p.payload == 188 {
            self.tb.push(from, to, 188.0);
            return Ok(());
        }
        let span = to - from;
        let at = |byte: usize| from + span * byte as f64 / 188.0;
        self.tb.push(from, at(p.payload), p.payload as f64);
        let mut begin = p.payload;
        for piece in self.scan(&window[p.payload..], p.start) {
            let end = p.payload + piece.end;
            let bytes = (end - begin) as f64;
            let (out, done) = self.tb.push(at(begin), at(end), bytes);
            if let Some(stamp) = piece.stamp {
                self.close(Queue::Unit)?;
                self.open = Some(Unit { decode: clock.decode(stamp), bytes: 0.0, input: at(begin) });
            }
            if let Some(unit) = self.open.as_mut().filter(|_| self.video.is_none() || !piece.header) {
                unit.bytes += bytes;
            }
            self.inflow.runs.push(Run { from: out, to: done, bytes }, Queue::Run)?;
            if let Some(v) = &mut self.video {
                v.queued += bytes;
                if piece.header {
                    v.marks.push((v.queued, bytes), Queue::Mark)?;
                }
            }
            begin = end;
        }
        Ok(())
    }

    fn close(&mut self, queue: Queue) -> Result<(), Queue> {
        match self.open.take() {
            Some(unit) => self.units.push(unit, queue),
            None => Ok(()),
        }
    }

    fn remove(&mut self, until: f64) {
        if self.video.is_some() {
            self.advance(until);
        } else {
            self.drain(until);
        }
    }

    fn late(&mut self, unit: &Unit) {
        self.delay = self.delay.max(unit.decode - unit.input);
        self.seen.note(Place::FarStamp, (unit.decode - unit.input).abs() > 1000.0);
        self.count += 1;
    }

    fn drain(&mut self, until: f64) {
        while self.units.items.front().is_some_and(|u| u.decode <= until) {
            let unit = self.units.items.pop_front().unwrap();
            let arrived = self.inflow.by(unit.decode);
            self.peak = self.peak.max(arrived - self.removed);
            self.required += unit.bytes;
            self.removed = self.required.min(arrived);
            self.late(&unit);
        }
    }

    fn advance(&mut self, until: f64) {
        while self.units.items.front().is_some_and(|u| u.decode <= until) {
            let decode = self.units.items[0].decode;
            self.leak(decode);
            let unit = self.units.items.pop_front().unwrap();
            self.required += unit.bytes;
            let v = self.video.as_mut().unwrap();
            v.eb_removed = self.required.min(v.eb_in);
            self.late(&unit);
        }
        self.leak(until);
    }

    fn leak(&mut self, t: f64) {
        let v = self.video.as_mut().unwrap();
        if v.clock == f64::NEG_INFINITY {
            v.clock = t;
            return;
        }
        while v.clock < t - 1e-6 {
            let now = v.clock;
            let waiting = self.inflow.by(now) - v.transferred;
            self.peak = self.peak.max(waiting);
            let room = v.eb - (v.eb_in - v.eb_removed);
            if room <= 1.0 {
                self.seen.note(Place::FullEb, true);
                self.peak = self.peak.max(self.inflow.by(t) - v.transferred);
                v.clock = t;
                break;
            }
            if waiting <= 1.0 {
                let coming = self.inflow.by(t) - v.transferred - waiting;
                let moved = coming.min(room.max(0.0));
                v.transfer(moved.max(0.0));
                if moved + 1.0 < coming
                    && let Some(when) = self.inflow.when(v.transferred)
                {
                    self.seen.note(Place::FillingEb, true);
                    v.clock = when.max(now);
                    continue;
                }
                v.clock = t;
                break;
            }
            let moved = (v.rbx * (t - now)).min(waiting).min(room);
            v.transfer(moved);
            v.clock = now + (moved / v.rbx).max(1e-6);
        }
        self.peak = self.peak.max(self.inflow.by(t) - v.transferred);
        v.clock = v.clock.max(t);
    }

    /// What is left once the packets are through.
    fn finish(&mut self) {
        match &self.video {
            Some(v) => {
                let until = v.clock.max(0.0) + v.queued / v.rbx + 2.0;
                self.advance(until);
            }
            None => {
                self.drain(f64::INFINITY);
                let total = self.inflow.settled + self.inflow.runs.items.iter().map(|r| r.bytes).sum::<f64>();
                self.peak = self.peak.max(total - self.removed);
            }
        }
    }

    fn figures(&self) -> [u64; CHAIN_WORDS] {
        let eb = self.video.as_ref().map_or(0, |v| v.eb_peak as u64);
        [self.pid as u64, self.tb.peak as u64, self.peak as u64, eb, self.count, bits(self.delay)]
    }
}

impl Video {
    fn transfer(&mut self, bytes: f64) {
        if bytes <= 0.0 {
            return;
        }
        let (start, end) = (self.transferred, self.transferred + bytes);
        let mut headers = 0.0;
        while let Some(&(to, length)) = self.marks.items.front() {
            let from = to - length;
            if from >= end {
                break;
            }
            headers += (end.min(to) - start.max(from)).max(0.0);
            if to > end {
                break;
            }
            self.marks.items.pop_front();
        }
        self.transferred = end;
        self.eb_in += bytes - headers;
        self.eb_peak = self.eb_peak.max(self.eb_in - self.eb_removed);
    }
}

/// Once a header's first bytes say where its stamp ends: the stamp, and the header bytes behind it.
fn header(head: &[u8]) -> Option<(Option<u64>, usize)> {
    const NO_HEADER: [u8; 8] = [0xbc, 0xbe, 0xbf, 0xf0, 0xf1, 0xff, 0xf2, 0xf8];
    if head.len() >= 6 && NO_HEADER.contains(&head[3]) {
        return Some((None, 0));
    }
    if head.len() < 9 {
        return None;
    }
    let length = head[8] as usize;
    let wants = match head[7] >> 6 {
        2 => 5,
        3 => 10,
        _ => 0,
    };
    let stamp_end = 9 + length.min(wants);
    if head.len() < stamp_end {
        return None;
    }
    let stamp = (wants > 0 && length >= wants).then(|| {
        let s = &head[stamp_end - 5..stamp_end];
        let high = (s[0] as u64 >> 1 & 7) << 30 | (s[1] as u64) << 22;
        high | (s[2] as u64 >> 1) << 15 | (s[3] as u64) << 7 | s[4] as u64 >> 1
    });
    Some((stamp, 9 + length - head.len()))
}

struct System {
    tb: Fifo,
    fullness: f64,
    last: f64,
    peak: f64,
}

impl System {
    fn take(&mut self, from: f64, to: f64, rate: f64) {
        let (out, done) = self.tb.push(from, to, 188.0);
        let drain = ((rate * 8.0) / 500.0).max(80_000.0) / 8.0;
        if self.last == f64::NEG_INFINITY {
            self.last = out;
        }
        self.fullness = (self.fullness - drain * (out - self.last).max(0.0)).max(0.0);
        self.fullness = (self.fullness + 188.0 - drain * (done - out).max(0.0)).max(0.0);
        self.peak = self.peak.max(self.fullness);
        self.last = done;
    }
}

/// Document 01's answer as far as the rules say it: the refusal, or the row of an accepted replay.
pub fn judge(words: &[u64], lent: Lengths, bytes: &[u8]) -> Verdict {
    let Some(profile) = profile(words) else { return refused(1, 0, 0) };
    let needed = profile.needed();
    if lent.times < needed.times || lent.places < needed.places || lent.row / CHAIN_WORDS < needed.row || lent.report != REPORT_WORDS {
        return refused(2, 0, 0);
    }
    if bytes.len() > MAX_RECORDING {
        return refused(3, 0, 0);
    }
    let Some(grid) = layout(bytes) else { return refused(4, 0, 0) };
    let samples = samples(bytes, grid, profile.pcr_pid);
    if samples.len() > profile.clock_depth {
        return refused(8, profile.clock_depth as u64, 0);
    }
    if samples.len() < 2 {
        return refused(5, 0, 0);
    }
    let mut seen = Seen::default();
    let intervals = match intervals(&samples, &mut seen) {
        Err((number, sample)) => return refused(number, sample, 0),
        Ok(list) => list,
    };
    seen.note(Place::Layout192, grid.0 == 192);
    seen.note(Place::Layout204, grid.0 == 204);
    seen.note(Place::Remainder, bytes.len() % grid.0 != 0);
    let pids: Vec<u16> = profile.streams.iter().map(|s| s.pid).collect();
    seen.note(Place::RepeatedPid, (1..pids.len()).any(|k| pids[..k].contains(&pids[k])));
    seen.note(Place::SharedPid, profile.system.iter().any(|pid| pids.contains(pid)));
    let clock = Clock { intervals, at: 0 };
    replay(&profile, clock, samples.len(), windows(bytes, grid), seen)
}

fn replay<'a>(profile: &Profile, mut clock: Clock, samples: usize, windows: impl Iterator<Item = &'a [u8]>, mut seen: Seen) -> Verdict {
    let mut chains: Vec<Chain> = profile.streams.iter().map(|s| Chain::new(s, profile.queue_depth)).collect();
    let mut system = System { tb: Fifo::new(1_000_000), fullness: 0.0, last: f64::NEG_INFINITY, peak: 0.0 };
    let full = |queue, packet, pid: u16| Verdict::Refused { answer: answer(10, packet, pid as u64), queue: Some(queue) };
    let mut packets = 0;
    for (k, window) in windows.enumerate() {
        packets = k as u64 + 1;
        let Some(p) = parse(window) else {
            seen.note(Place::Unparsed, true);
            continue;
        };
        let from = clock.time(188 * k as u64);
        let to = clock.time(188 * packets);
        if let Some(chain) = chains.iter_mut().find(|c| c.pid == p.pid) {
            if let Err(queue) = chain.take(window, p, from, to, &clock) {
                return full(queue, k as u64, p.pid);
            }
        } else if profile.system.contains(&p.pid) {
            system.take(from, to, clock.intervals[clock.at].rate);
        }
    }
    for chain in &mut chains {
        if let Err(queue) = chain.close(Queue::LastUnit) {
            return full(queue, packets, chain.pid);
        }
        chain.finish();
        seen.0.iter_mut().zip(chain.seen.0).for_each(|(n, more)| *n += more);
    }
    let mut row: Vec<u64> = chains.iter().flat_map(Chain::figures).collect();
    if let Some(first) = profile.system.first() {
        row.extend([*first as u64, system.tb.peak as u64, system.peak as u64, 0, 0, 0]);
    }
    Verdict::Accepted { samples, row, seen }
}
