//! A profile for a real stream from its own tables: the first program of the PAT, its PMT, the PCR PID and the
//! elementary streams. Only sections that lie in one packet are read, which is how muxers write them.

use crate::rules;
use crate::words::*;

/// The section behind the pointer field of the first packet of this PID that starts one.
fn section(bytes: &[u8], grid: (usize, usize), pid: u16, table: u8) -> Option<Vec<u8>> {
    rules::windows(bytes, grid).find_map(|window| {
        let p = rules::parse(window)?;
        if p.pid != pid || !p.start || p.payload >= 187 {
            return None;
        }
        let payload = &window[p.payload..];
        let body = payload.get(1 + payload[0] as usize..)?;
        let length = 3 + ((*body.get(1)? as usize & 15) << 8 | *body.get(2)? as usize);
        (body[0] == table && (12..=body.len()).contains(&length)).then(|| body[..length - 4].to_vec())
    })
}

fn pid_at(b: &[u8], at: usize) -> u16 {
    (b[at] as u16 & 31) << 8 | b[at + 1] as u16
}

fn stream(kind: u8, pid: u16) -> Stream {
    let (rx, branch) = match kind {
        1 | 2 => (18_000_000, Branch::Video { rbx: 15_000_000, mb: 10_000, eb: 229_376 }),
        0x10 | 0x1b | 0x24 => (24_000_000, Branch::Video { rbx: 20_000_000, mb: 26_000, eb: 1_250_000 }),
        0x0f | 0x11 => (2_000_000, Branch::Main { size: 8_976 }),
        _ => (2_000_000, Branch::Main { size: 3_584 }),
    };
    Stream { pid, rx, branch }
}

/// PCR PID, streams and system PIDs 0, 1 and the PMT's; depths 8,192 and 3,000.
pub fn profile(bytes: &[u8]) -> Option<Profile> {
    let grid = rules::layout(bytes)?;
    let mut p = Profile { queue_depth: 8_192, clock_depth: 3_000, ..Profile::default() };
    let pat = section(bytes, grid, 0, 0);
    let pmt_pid = pat.and_then(|s| s[8..].chunks_exact(4).find(|e| e[0] != 0 || e[1] != 0).map(|e| pid_at(e, 2)));
    let pmt = pmt_pid.and_then(|pid| section(bytes, grid, pid, 2));
    let Some(pmt) = pmt else { return without_tables(bytes, grid, p) };
    p.system = vec![0, 1, pmt_pid?];
    p.pcr_pid = pid_at(&pmt, 8);
    let mut at = 12 + ((pmt[10] as usize & 15) << 8 | pmt[11] as usize);
    while at + 5 <= pmt.len() && p.streams.len() < MAX_STREAMS {
        p.streams.push(stream(pmt[at], pid_at(&pmt, at + 1)));
        at += 5 + ((pmt[at + 3] as usize & 15) << 8 | pmt[at + 4] as usize);
    }
    Some(p)
}

/// A sample that has no tables: the first PID with a PCR, and the PIDs that start units.
fn without_tables(bytes: &[u8], grid: (usize, usize), mut p: Profile) -> Option<Profile> {
    let packets: Vec<_> = rules::windows(bytes, grid).filter_map(rules::parse).collect();
    p.pcr_pid = packets.iter().find(|q| q.pcr.is_some()).map_or(256, |q| q.pid);
    p.system = vec![0, 1];
    for q in packets.iter().filter(|q| q.start && q.pid > 31 && q.pid < 8191) {
        if p.streams.len() < MAX_STREAMS && !p.streams.iter().any(|s| s.pid == q.pid) {
            let kind = if p.streams.is_empty() { 2 } else { 3 };
            p.streams.push(stream(kind, q.pid));
        }
    }
    Some(p)
}
