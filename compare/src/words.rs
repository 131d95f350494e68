//! The C boundary's words: a profile as 69, a report as 324, a chain as 6, and the answer word, with the text form
//! of a profile that stands beside a recording. Where a word is a float's bits, a zero of either sign is one word.

pub const PROFILE_WORDS: usize = 69;
pub const REPORT_WORDS: usize = 324;
pub const CHAIN_WORDS: usize = 6;
pub const LINE_WORDS: usize = 5;
pub const MAX_STREAMS: usize = 8;
pub const MAX_SYSTEM: usize = 16;
pub const STREAMS_AT: usize = 5;
pub const STREAM_WORDS: usize = 6;
pub const SYSTEM_AT: usize = STREAMS_AT + MAX_STREAMS * STREAM_WORDS;
pub const MAX_RECORDING: usize = 16_777_216;

/// The violation kinds in the order of the Rust's enum.
pub const KINDS: [&str; 9] =
    ["TbOverflow", "TbBusy", "MainOverflow", "MainUnderflow", "MbOverflow", "MbBusy", "EbUnderflow", "Delay", "BsysOverflow"];

#[derive(Clone, Debug, PartialEq)]
pub enum Branch {
    Main { size: u64 },
    Video { rbx: u64, mb: u64, eb: u64 },
}

#[derive(Clone, Debug, PartialEq)]
pub struct Stream {
    pub pid: u16,
    pub rx: u64,
    pub branch: Branch,
}

#[derive(Clone, Debug, Default, PartialEq)]
pub struct Profile {
    pub pcr_pid: u16,
    pub queue_depth: usize,
    pub clock_depth: usize,
    pub streams: Vec<Stream>,
    pub system: Vec<u16>,
}

/// How many entries of each lent slice a replay needs; `row` counts records.
#[derive(Clone, Copy, Debug, PartialEq)]
pub struct Needed {
    pub times: usize,
    pub places: usize,
    pub row: usize,
}

impl Profile {
    pub fn words(&self) -> [u64; PROFILE_WORDS] {
        let mut w = [0; PROFILE_WORDS];
        w[0] = self.pcr_pid as u64;
        w[1] = self.streams.len() as u64;
        w[2] = self.system.len() as u64;
        w[3] = self.queue_depth as u64;
        w[4] = self.clock_depth as u64;
        for (k, s) in self.streams.iter().enumerate() {
            let at = STREAMS_AT + k * STREAM_WORDS;
            let rest = match s.branch {
                Branch::Main { size } => [0, size, 0, 0],
                Branch::Video { rbx, mb, eb } => [1, rbx, mb, eb],
            };
            w[at] = s.pid as u64;
            w[at + 1] = s.rx;
            w[at + 2..at + 6].copy_from_slice(&rest);
        }
        for (k, pid) in self.system.iter().enumerate() {
            w[SYSTEM_AT + k] = *pid as u64;
        }
        w
    }

    pub fn needed(&self) -> Needed {
        Needed {
            times: 8 * self.queue_depth * self.streams.len() + 3 * self.clock_depth,
            places: 2 * self.clock_depth,
            row: self.streams.len() + usize::from(!self.system.is_empty()),
        }
    }

    /// One line for a reader: `video 256`, `main 257`, system PIDs and the depths.
    pub fn about(&self) -> String {
        let count = |video| self.streams.iter().filter(|s| matches!(s.branch, Branch::Video { .. }) == video).count();
        format!(
            "{} video, {} main, {} system PIDs, queue depth {}, clock depth {}",
            count(true),
            count(false),
            self.system.len(),
            self.queue_depth,
            self.clock_depth
        )
    }

    pub fn text(&self) -> String {
        let mut t = format!("pcr {}\nqueue {}\nclock {}\n", self.pcr_pid, self.queue_depth, self.clock_depth);
        for s in &self.streams {
            t += &match s.branch {
                Branch::Main { size } => format!("main {} {} {size}\n", s.pid, s.rx),
                Branch::Video { rbx, mb, eb } => format!("video {} {} {rbx} {mb} {eb}\n", s.pid, s.rx),
            };
        }
        for pid in &self.system {
            t += &format!("system {pid}\n");
        }
        t
    }
}

/// Lengths of the lent slices, in words.
#[derive(Clone, Copy, Debug)]
pub struct Lengths {
    pub times: usize,
    pub places: usize,
    pub row: usize,
    pub report: usize,
}

impl Lengths {
    pub fn exact(n: Needed) -> Self {
        Lengths { times: n.times, places: n.places, row: n.row * CHAIN_WORDS, report: REPORT_WORDS }
    }
}

/// The words of a profile file: lines as `Profile::text` writes them, or `words` and the 69 numbers themselves.
pub fn read_profile(text: &str) -> Result<[u64; PROFILE_WORDS], String> {
    let mut p = Profile::default();
    for line in text.lines() {
        let mut parts = line.split_whitespace();
        let Some(key) = parts.next() else { continue };
        let n: Vec<u64> = parts.map(|x| x.parse().map_err(|e| format!("{line}: {e}"))).collect::<Result<_, _>>()?;
        match (key, n.as_slice()) {
            ("words", _) => return n.try_into().map_err(|_| "a profile has 69 words".to_string()),
            ("pcr", [pid]) => p.pcr_pid = *pid as u16,
            ("queue", [depth]) => p.queue_depth = *depth as usize,
            ("clock", [depth]) => p.clock_depth = *depth as usize,
            ("main", [pid, rx, size]) => p.streams.push(Stream { pid: *pid as u16, rx: *rx, branch: Branch::Main { size: *size } }),
            ("video", [pid, rx, rbx, mb, eb]) => {
                p.streams.push(Stream { pid: *pid as u16, rx: *rx, branch: Branch::Video { rbx: *rbx, mb: *mb, eb: *eb } })
            }
            ("system", [pid]) => p.system.push(*pid as u16),
            _ => return Err(format!("not a line of a profile: {line}")),
        }
    }
    if p.streams.len() > MAX_STREAMS || p.system.len() > MAX_SYSTEM {
        return Err("more streams or system PIDs than slots: write the 69 words".to_string());
    }
    Ok(p.words())
}

pub fn words_text(words: &[u64]) -> String {
    let list: Vec<String> = words.iter().map(u64::to_string).collect();
    format!("words {}\n", list.join(" "))
}

/// The answer word.
pub fn answer(number: u64, place: u64, pid: u64) -> u64 {
    number + 256 * pid + (place << 24)
}

/// Number, place and PID of an answer word.
pub fn parts(answer: u64) -> (u64, u64, u64) {
    (answer % 256, answer >> 24, answer / 256 % 65536)
}

pub fn answer_text(word: u64) -> String {
    match parts(word) {
        (0, 0, 0) => "accepted".to_string(),
        (number, place, pid) => format!("refused {number}, place {place}, PID {pid}"),
    }
}

/// A float's bits with a negative zero as zero.
pub fn bits(x: f64) -> u64 {
    if x == 0.0 { 0 } else { x.to_bits() }
}

fn plain_zero(word: &mut u64) {
    if *word == 1 << 63 {
        *word = 0;
    }
}

/// Negative zeros of a report as zeros, in the words that are a float's bits.
pub fn level_report(report: &mut [u64]) {
    plain_zero(&mut report[2]);
    for line in report[4..].chunks_mut(LINE_WORDS) {
        plain_zero(&mut line[3]);
        if matches!(line[0], 1 | 5 | 7) {
            plain_zero(&mut line[4]);
        }
    }
}

pub fn level_chain(chain: &mut [u64]) {
    plain_zero(&mut chain[5]);
}
