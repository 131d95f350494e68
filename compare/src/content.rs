//! Document 01's paragraph on content, read off a recording, its layout and the profile's PIDs: which bytes a replay
//! must not look at.

use crate::rules::{self, Packet};
use crate::words::Profile;

const TABLE: [u8; 8] = [0xbc, 0xbe, 0xbf, 0xf0, 0xf1, 0xff, 0xf2, 0xf8];

/// A unit's payload bytes as places in the recording, in order.
type Places = Vec<usize>;

/// True at each byte that is content; nothing where no layout is found.
pub fn mask(bytes: &[u8], profile: &Profile) -> Option<Vec<bool>> {
    let (size, sync) = rules::layout(bytes)?;
    let mut content = vec![true; bytes.len()];
    let mut units: Vec<(u16, Option<Places>)> = Vec::new();
    for s in &profile.streams {
        if !units.iter().any(|(pid, _)| *pid == s.pid) {
            units.push((s.pid, None));
        }
    }
    for k in 0..bytes.len() / size {
        let from = k * size + sync;
        let window = &bytes[from..from + 188];
        let Some(Packet { pid, start, payload, .. }) = rules::parse(window) else {
            content[from..from + 188].fill(false);
            continue;
        };
        content[from..from + payload].fill(false);
        let Some((_, unit)) = units.iter_mut().find(|(p, _)| *p == pid) else { continue };
        if payload == 188 {
            continue;
        }
        if start && let Some(ended) = unit.replace(Places::new()) {
            keep_header(bytes, &ended, &mut content);
        }
        if let Some(places) = unit {
            places.extend(from + payload..from + 188);
        }
    }
    for (_, unit) in units {
        keep_header(bytes, &unit.unwrap_or_default(), &mut content);
    }
    Some(content)
}

/// A unit's PES header is not content.
fn keep_header(bytes: &[u8], unit: &[usize], content: &mut [bool]) {
    let byte = |k: usize| unit.get(k).map(|at| bytes[*at]);
    let begins = match (byte(3), byte(8)) {
        (Some(id), _) if TABLE.contains(&id) => 6,
        (Some(_), Some(length)) => 9 + length as usize,
        _ => unit.len(),
    };
    for at in unit.iter().take(begins) {
        content[*at] = false;
    }
}
