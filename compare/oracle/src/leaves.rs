
// What stands below is not the Rust's: it makes private parts of the text above callable.
pub mod leaves {
    use super::*;

    pub fn has_optional_pes_header(id: u8) -> bool {
        crate::pes::has_optional_pes_header(id)
    }

    /// `PesScanner`.
    #[derive(Default)]
    pub struct Scanner(PesScanner);

    /// One run: offset, length, whether header, and the stamp.
    pub type ScannedRun = (usize, usize, bool, Option<u64>);

    impl Scanner {
        pub fn feed(&mut self, payload: &[u8], start: bool, out: &mut Vec<ScannedRun>) {
            let mut runs = Vec::new();
            self.0.feed(payload, start, &mut runs);
            out.clear();
            out.extend(runs.iter().map(|r| (r.offset, r.len, r.class == ByteClass::Header, r.decode_ts)));
        }
    }

    /// `FluidFifo`.
    pub struct Fifo(FluidFifo);

    impl Fifo {
        pub fn new(rate_bps: u64) -> Self {
            Fifo(FluidFifo::new(rate_bps))
        }

        pub fn push(&mut self, from: f64, to: f64, bytes: f64) -> (f64, f64) {
            self.0.push(from, to, bytes)
        }

        /// Virtual end, start of the busy stretch, peak, longest busy stretch.
        pub fn state(&self) -> (f64, Option<f64>, f64, f64) {
            (self.0.virtual_done, self.0.busy_since, self.0.peak, self.0.longest_busy)
        }
    }

    /// A violation as kind, PID, limit, decode time and figure, floats by their bits.
    pub type Line = [u64; 5];

    fn violation(l: Line) -> TStdViolation {
        use TStdViolation::*;
        let (pid, limit, decode_time, float) = (l[1] as u16, l[2] as usize, f64::from_bits(l[3]), f64::from_bits(l[4]));
        match l[0] {
            0 => TbOverflow { pid, peak_bytes: l[4] },
            1 => TbBusyOverOneSecond { pid, seconds: float },
            2 => MainOverflow { pid, peak_bytes: l[4], limit },
            3 => MainUnderflow { pid, decode_time, missing_bytes: l[4] },
            4 => MbOverflow { pid, peak_bytes: l[4], limit },
            5 => MbBusyOverOneSecond { pid, seconds: float },
            6 => EbUnderflow { pid, decode_time, missing_bytes: l[4] },
            7 => DelayOverOneSecond { pid, decode_time, delay_seconds: float },
            _ => BsysOverflow { peak_bytes: l[4] },
        }
    }

    fn line(v: &TStdViolation) -> Line {
        use TStdViolation::*;
        let (kind, pid) = v.key();
        let (limit, decode, figure) = match *v {
            TbOverflow { peak_bytes, .. } | BsysOverflow { peak_bytes } => (0, 0.0, peak_bytes),
            TbBusyOverOneSecond { seconds, .. } | MbBusyOverOneSecond { seconds, .. } => (0, 0.0, seconds.to_bits()),
            MainOverflow { peak_bytes, limit, .. } | MbOverflow { peak_bytes, limit, .. } => (limit, 0.0, peak_bytes),
            MainUnderflow { decode_time, missing_bytes, .. } => (0, decode_time, missing_bytes),
            EbUnderflow { decode_time, missing_bytes, .. } => (0, decode_time, missing_bytes),
            DelayOverOneSecond { decode_time, delay_seconds, .. } => (0, decode_time, delay_seconds.to_bits()),
        };
        [kind as u64, pid as u64, limit as u64, decode.to_bits(), figure]
    }

    /// `TStdReport` and its `record`.
    #[derive(Clone, Default)]
    pub struct Report(TStdReport);

    impl Report {
        pub fn of(events: u64, lines: impl Iterator<Item = Line>) -> Self {
            let mut report = TStdReport::default();
            report.violation_events = events;
            report.violations = lines.map(violation).collect();
            Report(report)
        }

        pub fn record(&mut self, line: Line) {
            self.0.record(violation(line));
        }

        pub fn events(&self) -> u64 {
            self.0.violation_events
        }

        pub fn lines(&self) -> Vec<Line> {
            self.0.violations.iter().map(line).collect()
        }
    }
}
