#!/usr/bin/env python3
"""figure.py: appends to data/answers.bin document 01's figure of a full queue: queue depth 1, two good PCRs on 256, and between
them one start packet of three runs of a video stream on 257. Refused 10, packet 1, PID 257."""
import struct


def packet(pid, start, control, rest):
    head = bytes([0x47, (0x40 if start else 0) | pid >> 8, pid & 255, control << 4])
    return head + rest + b"\xff" * (184 - len(rest))


def pcr(ticks):
    base, extension = divmod(ticks, 300)
    field = (base << 15 | 0x3F << 9 | extension).to_bytes(6, "big")
    return packet(256, False, 2, bytes([183, 0x10]) + field)


def stamp(mark, value):
    parts = [mark << 4 | value >> 29 & 14 | 1, value >> 22 & 255, value >> 14 & 254 | 1, value >> 7 & 255, value << 1 & 254 | 1]
    return bytes(parts)


unit = bytes([0, 0, 1, 0xE0, 0, 0, 0x80, 0x80, 9]) + stamp(2, 90000)
data = pcr(0) + packet(257, True, 1, unit) + pcr(3375000)
streams = [257, 2000000, 1, 2000000, 10000, 10000] + [0] * 42
profile = [256, 1, 3, 1, 64] + streams + [0, 1, 4096] + [0] * 13
words = [len(data)] + profile
words += struct.unpack(f"<{(len(data) + 7) // 8}Q", data + b"\0" * (-len(data) % 8))
words.append(10 + 256 * 257 + 2**24 * 1)
raw = open("data/answers.bin", "rb").read()
count = struct.unpack("<Q", raw[:8])[0]
open("data/answers.bin", "wb").write(struct.pack("<Q", count + 1) + raw[8:] + struct.pack(f"<{len(words)}Q", *words))
