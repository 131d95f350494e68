#!/usr/bin/env python3
"""Writes the recordings under data/ but for real.ts, a part of a stream by ffmpeg's muxer (README.md)."""
import os

PCR_PID, AUDIO, PAT, NULL = 256, 257, 0, 8191
SECOND = 27_000_000


def packet(pid, payload=b"", start=False, field=None, sync=0x47):
    """A packet of 188 bytes; without a payload it is all adaptation field, else the field fills up."""
    control = (0x20 if field is not None or len(payload) < 184 else 0) | (0x10 if payload else 0)
    head = bytes([sync, (0x40 if start else 0) | pid >> 8, pid & 255, control])
    if control & 0x20:
        length = 183 - len(payload)
        body = (field or b"\0")[:length]
        head += bytes([length]) + body + b"\xff" * (length - len(body))
    return head + payload


def pcr(ticks, mark=False, payload=b""):
    bits = (ticks // 300 << 15) | 0x3F << 9 | ticks % 300
    return packet(PCR_PID, payload, field=bytes([0x90 if mark else 0x10]) + bits.to_bytes(6, "big"))


def null():
    return packet(NULL, b"\xff" * 184)


def stamp(prefix, v):
    return bytes([prefix << 4 | (v >> 30 & 7) << 1 | 1, v >> 22 & 255, (v >> 15 & 127) << 1 | 1, v >> 7 & 255, (v & 127) << 1 | 1])


def unit(pts=None, dts=None, size=184, stream_id=0xC0):
    """A packet that starts a PES unit; its payload has `size` bytes."""
    marks, stamps = 0, b""
    if pts is not None and dts is None:
        marks, stamps = 0x80, stamp(2, pts)
    elif pts is not None:
        marks, stamps = 0xC0, stamp(3, pts) + stamp(1, dts)
    head = b"\0\0\1" + bytes([stream_id, 0, 0, 0x80, marks, len(stamps)]) + stamps
    return packet(AUDIO, (head + b"\xaa" * size)[:size], start=True)


def more(size=184):
    return packet(AUDIO, b"\xbb" * size)


def pat():
    return packet(PAT, b"\0" * 184, start=True)


def steps(count, step, first=0):
    return [pcr(first + step * k) for k in range(count)]


nine = [pcr(0)] + [null()] * 7 + [pcr(19_828_125)]

files = {
    # 3: one byte more than the longest; the longest itself; 4 and 5 at the smallest lengths
    "longest.ts": b"".join(nine + [null()] * 165) + b"\x47" * 56,
    "too_long.ts": b"".join(nine + [null()] * 165) + b"\x47" * 57,
    "empty.ts": b"",
    "no_layout.ts": b"".join(nine)[:375],
    "one_pcr.ts": b"".join([pcr(5), null()]),
    # 6 and 7, and a mark that waits for the next PCR
    "marked_second.ts": b"".join([pcr(SECOND), pcr(0, mark=True), pcr(SECOND // 10)]),
    "repeated.ts": b"".join([pcr(0), pcr(SECOND // 10), null(), pcr(SECOND // 5), pcr(SECOND // 5)]),
    "marked_third.ts": b"".join([pcr(SECOND), null(), pcr(SECOND * 11 // 10), unit(90_000 * 12 // 10), pcr(7, mark=True), unit(9_000), more(), pcr(SECOND // 5)]),
    # 8: 65 samples and 64
    "samples_65.ts": b"".join(steps(65, 300_000)),
    "samples_64.ts": b"".join(steps(64, 300_000)),
    # 9: under 1,000 bytes/s, at 1,000 and over 1,000,000,000
    "slow.ts": b"".join([pcr(0), null(), pcr(SECOND * 376 // 1000), pcr(SECOND * 376 // 1000 + SECOND * 189 // 1000)]),
    "at_1000.ts": b"".join([pcr(0), null(), pcr(SECOND * 376 // 1000)]),
    "fast.ts": b"".join([pcr(0), null(), pcr(11), pcr(16)]),
    # 10: units that wait, each of a header run and a content run; 64 of them fill a queue of 128 runs
    "queue_full.ts": b"".join([pcr(0)] + [unit(900_000 + 90 * k, size=20) for k in range(65)] + [pcr(SECOND)]),
    "queue_fits.ts": b"".join([pcr(0)] + [unit(900_000 + 90 * k, size=20) for k in range(64)] + [pcr(SECOND)]),
    # decode times below zero: 1 s, 14 ticks (which is no microsecond) and 30 ticks
    "negative.ts": b"".join([pcr(SECOND), unit(0, size=100), more(60), null(), unit(45_000), pcr(SECOND * 3 // 2)]),
    "near_zero.ts": b"".join([pcr(SECOND + 14), unit(90_000, size=100), more(60), null(), unit(95_000), pcr(SECOND * 3 // 2)]),
    "below_zero.ts": b"".join([pcr(SECOND + 30), unit(90_000, size=100), more(60), null(), unit(95_000), pcr(SECOND * 3 // 2)]),
    # violations: bursts in audio and tables, then units that wait and one that is short
    "violations.ts": b"".join(
        [pcr(0), unit(0, size=60)]
        + [unit(270_000, 180_000)] + [more()] * 22
        + [pat()] * 14
        + [pcr(40_000)]
        + [unit(1_000, size=184), more(), unit(None, size=50), unit(200_000, size=9), packet(AUDIO, sync=0x46), unit(2_000, stream_id=0xBE), null(), more(100)]
        + [pcr(40_000 + SECOND // 2)] + [null()] * 6 + [pcr(40_000 + SECOND)] + [null()] * 10 + [pcr(40_000 + SECOND * 5 // 2)]
        + [null()] * 6 + [pcr(40_000 + SECOND * 7 // 2)]
    ),
    # other layouts, a wrap of the clock, unparsed packets
    "layout_192.ts": b"".join(b"\x47\0\0\1" + p for p in nine[:1] + [unit(50_000), more(20)] + nine[3:]) + b"\x47" * 191,
    "layout_204.ts": b"".join(p + b"\x47" * 16 for p in nine[:1] + [unit(50_000), more(20)] + nine[3:]) + b"\x47" * 188,
    "wrap.ts": b"".join([pcr(2_576_980_377_600 - SECOND // 10), unit(0), null(), pcr(SECOND // 10), unit(4_500), more(), pcr(SECOND // 5)]),
}

os.makedirs("data", exist_ok=True)
for name, data in files.items():
    with open(os.path.join("data", name), "wb") as f:
        f.write(data)
