//! A safe Rust face of the proved T-STD buffer replay, over the C boundary of `tstd.h`.

pub const PROFILE_WORDS: usize = 69;
pub const MAX_STREAMS: usize = 8;
pub const MAX_SYSTEM_PIDS: usize = 16;
pub const ROW_WORDS: usize = 6;
pub const REPORT_WORDS: usize = 324;
pub const LINE_WORDS: usize = 5;
pub const MAX_LINES: usize = 64;

const STREAMS: usize = 5;
const STREAM_WORDS: usize = 6;
const SYSTEM_PIDS: usize = 53;
const LINES: usize = 4;

unsafe extern "C" {
    // An argument that is a slice in Rattle is a pointer and a length here.
    fn tstd_replay(
        bytes: *const u8,
        bytes_len: usize,
        profile: *const u64,
        profile_len: usize,
        times: *mut f64,
        times_len: usize,
        places: *mut u64,
        places_len: usize,
        row: *mut u64,
        row_len: usize,
        report: *mut u64,
        report_len: usize,
    ) -> u64;
}

#[derive(Clone, Copy, Debug, PartialEq, Eq)]
pub enum Branch {
    Main { buffer_size: u64 },
    Video { rbx_bps: u64, mb_size: u64, eb_size: u64 },
}

#[derive(Clone, Copy, Debug, PartialEq, Eq)]
pub struct Stream {
    pub pid: u16,
    pub rx_bps: u64,
    pub branch: Branch,
}

#[derive(Clone, Debug, PartialEq, Eq)]
pub struct Config {
    pub pcr_pid: u16,
    pub streams: Vec<Stream>,
    pub system_pids: Vec<u16>,
    pub queue_depth: u64,
    pub clock_depth: u64,
}

/// How much a configuration needs, in elements of each array.
#[derive(Clone, Copy, Debug, PartialEq, Eq)]
pub struct Needed {
    pub times: usize,
    pub places: usize,
    pub row: usize,
}

impl Config {
    /// The words of the profile. Streams past the eighth and system PIDs past the sixteenth have no slot: their count is kept,
    /// and the replay refuses it with number 1.
    pub fn words(&self) -> [u64; PROFILE_WORDS] {
        let mut words = [0; PROFILE_WORDS];
        words[0] = self.pcr_pid.into();
        words[1] = self.streams.len() as u64;
        words[2] = self.system_pids.len() as u64;
        words[3] = self.queue_depth;
        words[4] = self.clock_depth;
        for (i, stream) in self.streams.iter().take(MAX_STREAMS).enumerate() {
            let slot = &mut words[STREAMS + STREAM_WORDS * i..][..STREAM_WORDS];
            let (kind, a, b, c) = match stream.branch {
                Branch::Main { buffer_size } => (0, buffer_size, 0, 0),
                Branch::Video { rbx_bps, mb_size, eb_size } => (1, rbx_bps, mb_size, eb_size),
            };
            slot.copy_from_slice(&[stream.pid.into(), stream.rx_bps, kind, a, b, c]);
        }
        for (i, &pid) in self.system_pids.iter().take(MAX_SYSTEM_PIDS).enumerate() {
            words[SYSTEM_PIDS + i] = pid.into();
        }
        words
    }

    /// The lengths that a replay of this configuration asks for; `None` where they overflow, which is outside the limits.
    pub fn needed(&self) -> Option<Needed> {
        let depth = usize::try_from(self.queue_depth).ok()?;
        let clock = usize::try_from(self.clock_depth).ok()?;
        let streams = self.streams.len();
        let chains = streams.checked_add(usize::from(!self.system_pids.is_empty()))?;
        Some(Needed {
            times: depth.checked_mul(8)?.checked_mul(streams)?.checked_add(clock.checked_mul(3)?)?,
            places: clock.checked_mul(2)?,
            row: chains.checked_mul(ROW_WORDS)?,
        })
    }
}

/// Number 0 is an accepted recording; the numbers of the refusals are in `tstd.h`.
#[derive(Clone, Copy, Debug, PartialEq, Eq)]
pub struct Answer {
    pub number: u8,
    pub pid: u16,
    pub place: u64,
}

impl Answer {
    pub fn from_word(word: u64) -> Self {
        Answer { number: word as u8, pid: (word >> 8) as u16, place: word >> 24 }
    }
}

/// The boundary as it is: a profile, row or report of any length is answered with a number, not a panic.
pub fn replay_words(
    bytes: &[u8],
    profile: &[u64],
    times: &mut [f64],
    places: &mut [u64],
    row: &mut [u64],
    report: &mut [u64],
) -> Answer {
    // SAFETY: each pointer comes with the length of its own slice. The changed slices are `&mut`, so they overlap nothing.
    // The function is proved to stay within its slices and to end, for every content and length.
    let word = unsafe {
        tstd_replay(
            bytes.as_ptr(),
            bytes.len(),
            profile.as_ptr(),
            profile.len(),
            times.as_mut_ptr(),
            times.len(),
            places.as_mut_ptr(),
            places.len(),
            row.as_mut_ptr(),
            row.len(),
            report.as_mut_ptr(),
            report.len(),
        )
    };
    Answer::from_word(word)
}

/// A replay with a configuration. A report of another length than `REPORT_WORDS` is a mistake of the program, and panics;
/// work or a row that is too short is number 2.
pub fn replay(
    bytes: &[u8],
    config: &Config,
    times: &mut [f64],
    places: &mut [u64],
    row: &mut [u64],
    report: &mut [u64],
) -> Answer {
    assert_eq!(report.len(), REPORT_WORDS, "the report has {REPORT_WORDS} words");
    replay_words(bytes, &config.words(), times, places, row, report)
}

/// The figures of one chain, from its six words.
#[derive(Clone, Copy, Debug, PartialEq)]
pub struct Chain {
    pub pid: u16,
    pub peak_tb_bytes: u64,
    pub peak_main_bytes: u64,
    pub peak_eb_bytes: u64,
    pub access_units: u64,
    pub max_delay_seconds: f64,
}

/// The records of a row, one for each six words.
pub fn chains(row: &[u64]) -> Vec<Chain> {
    row.chunks_exact(ROW_WORDS)
        .map(|w| Chain {
            pid: w[0] as u16,
            peak_tb_bytes: w[1],
            peak_main_bytes: w[2],
            peak_eb_bytes: w[3],
            access_units: w[4],
            max_delay_seconds: f64::from_bits(w[5]),
        })
        .collect()
}

#[derive(Clone, Copy, Debug, PartialEq)]
pub enum Violation {
    TbOverflow { pid: u16, peak_bytes: u64 },
    TbBusyOverOneSecond { pid: u16, seconds: f64 },
    MainOverflow { pid: u16, peak_bytes: u64, limit: u64 },
    MainUnderflow { pid: u16, decode_time: f64, missing_bytes: u64 },
    MbOverflow { pid: u16, peak_bytes: u64, limit: u64 },
    MbBusyOverOneSecond { pid: u16, seconds: f64 },
    EbUnderflow { pid: u16, decode_time: f64, missing_bytes: u64 },
    DelayOverOneSecond { pid: u16, decode_time: f64, delay_seconds: f64 },
    BsysOverflow { peak_bytes: u64 },
}

impl Violation {
    /// From the five words of a line; `None` for a kind that there is not.
    pub fn from_words(w: &[u64]) -> Option<Self> {
        let &[kind, pid, limit, time, figure] = w else { return None };
        let pid = pid as u16;
        let decode_time = f64::from_bits(time);
        Some(match kind {
            0 => Violation::TbOverflow { pid, peak_bytes: figure },
            1 => Violation::TbBusyOverOneSecond { pid, seconds: f64::from_bits(figure) },
            2 => Violation::MainOverflow { pid, peak_bytes: figure, limit },
            3 => Violation::MainUnderflow { pid, decode_time, missing_bytes: figure },
            4 => Violation::MbOverflow { pid, peak_bytes: figure, limit },
            5 => Violation::MbBusyOverOneSecond { pid, seconds: f64::from_bits(figure) },
            6 => Violation::EbUnderflow { pid, decode_time, missing_bytes: figure },
            7 => Violation::DelayOverOneSecond { pid, decode_time, delay_seconds: f64::from_bits(figure) },
            8 => Violation::BsysOverflow { peak_bytes: figure },
            _ => return None,
        })
    }
}

#[derive(Clone, Debug, PartialEq)]
pub struct Report {
    pub violation_events: u64,
    pub pcr_samples: u64,
    pub modelled_seconds: f64,
    pub violations: Vec<Violation>,
}

impl Report {
    /// From the words of a report that a replay wrote; `None` for words that no replay writes.
    pub fn from_words(words: &[u64]) -> Option<Self> {
        if words.len() != REPORT_WORDS {
            return None;
        }
        let lines = usize::try_from(words[3]).ok().filter(|&n| n <= MAX_LINES)?;
        Some(Report {
            violation_events: words[0],
            pcr_samples: words[1],
            modelled_seconds: f64::from_bits(words[2]),
            violations: words[LINES..].chunks_exact(LINE_WORDS).take(lines).map(Violation::from_words).collect::<Option<_>>()?,
        })
    }
}
