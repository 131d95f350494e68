//! Document 01's figures that are not marked P, each by the Rust and by our library: layout on 376 and 375 bytes, a
//! full queue at depth 1, and the line program's nine packets with its whole output.

use crate::expect::{self, Expected};
use crate::ffi::Memory;
use crate::generate::{head, pcr_packet, stamp_bytes};
use crate::words::*;

fn whole_micros(seconds: f64) -> i64 {
    (seconds * 1_000_000.0) as i64
}

/// The line program's lines of an accepted answer.
pub fn lines(want: &Expected) -> String {
    let r = &want.report;
    let micros = |bits: u64| whole_micros(f64::from_bits(bits));
    let mut text = format!("report,{},{},{}\n", r[0], r[1], micros(r[2]));
    for l in r[4..4 + LINE_WORDS * r[3] as usize].chunks(LINE_WORDS) {
        let figure = if matches!(l[0], 1 | 5 | 7) { micros(l[4]) } else { l[4] as i64 };
        text += &format!("violation,{},{},{},{},{figure}\n", l[0], l[1], l[2], micros(l[3]));
    }
    for c in want.row.chunks(CHAIN_WORDS) {
        text += &format!("chain,{},{},{},{},{},{}\n", c[0], c[1], c[2], c[3], c[4], micros(c[5]));
    }
    text
}

/// The line program's profile.
pub fn line_profile() -> Profile {
    Profile {
        pcr_pid: 256,
        queue_depth: 128,
        clock_depth: 64,
        streams: vec![Stream { pid: 257, rx: 2_000_000, branch: Branch::Main { size: 3_584 } }],
        system: vec![0, 1, 4096],
    }
}

pub fn line_packets() -> Vec<u8> {
    let mut bytes = pcr_packet(256, 0, false).to_vec();
    for _ in 0..7 {
        bytes.extend(head(8191, false, 1, 0));
    }
    bytes.extend(pcr_packet(256, 19_828_125, false));
    bytes
}

/// Two good PCRs on 256 around one start packet of three runs on 257.
fn three_runs() -> Vec<u8> {
    let mut bytes = pcr_packet(256, 0, false).to_vec();
    let mut p = head(257, true, 1, 0);
    p[4..13].copy_from_slice(&[0, 0, 1, 0xe0, 0, 0, 0x80, 0x80, 9]);
    p[13..18].copy_from_slice(&stamp_bytes(2, 90_000));
    bytes.extend(p);
    bytes.extend(pcr_packet(256, 3_375_000, false));
    bytes
}

fn one(name: &str, profile: &Profile, bytes: &[u8], wanted: &str, m: &mut Memory) -> Result<(), String> {
    let words = profile.words();
    let lent = Lengths::exact(profile.needed());
    let want = expect::expected(bytes, &words, lent).map_err(|e| format!("figures, {name}: {e}"))?;
    let said = if want.answer == 0 { lines(&want) } else { answer_text(want.answer) };
    if said != wanted {
        return Err(format!("figures, {name}: the oracle's side says {said}, document 01 {wanted}"));
    }
    expect::check(bytes, &words, lent, 1, m, &want).map_err(|e| format!("figures, {name}: {e}"))?;
    println!("  {name}: {}", said.replace('\n', " "));
    Ok(())
}

pub fn run() -> Result<(), String> {
    let m = &mut Memory::default();
    println!("figures:");
    let mut two = vec![0; 376];
    (two[0], two[188]) = (0x47, 0x47);
    let profile = line_profile();
    one("376 bytes with sync at 0 and 188, layout found", &profile, &two, "refused 5, place 0, PID 0", m)?;
    one("375 bytes", &profile, &two[..375], "refused 4, place 0, PID 0", m)?;
    let video = Stream { pid: 257, rx: 2_000_000, branch: Branch::Video { rbx: 2_000_000, mb: 10_000, eb: 10_000 } };
    let narrow = Profile { queue_depth: 1, streams: vec![video], ..line_profile() };
    one("queue depth 1, a start packet of three runs", &narrow, &three_runs(), "refused 10, place 1, PID 257", m)?;
    let nine = "report,0,2,826171\nchain,257,0,0,0,0,0\nchain,0,0,0,0,0,0\n";
    one("the line program's nine packets", &line_profile(), &line_packets(), nine, m)
}
