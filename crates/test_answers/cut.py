#!/usr/bin/env python3
"""cut.py SAMPLE REAL: data/answers.bin becomes a part of a sample that `compare sample` wrote, whose first REAL cases are of real
streams; what test_answers must print comes on standard output.

Cases are taken by what they show (number, kinds of violation, layout, streams, a real stream), short ones first."""
import struct
import sys

MOST_CASES, MOST_BYTES = 130, 340_000
EACH = 3


def cases(words):
    at = 1
    for k in range(words[0]):
        start = at
        size = words[at]
        profile = words[at + 1 : at + 70]
        at += 70
        data = struct.pack(f"<{(size + 7) // 8}Q", *words[at : at + (size + 7) // 8])[:size]
        at += (size + 7) // 8
        answer = words[at]
        at += 1
        lines = []
        if answer == 0:
            count = words[at + 3]
            lines = [tuple(words[at + 4 + 5 * i : at + 9 + 5 * i]) for i in range(count)]
            at += 4 + 5 * count + 6 * (profile[1] + (profile[2] > 0))
        yield k, words[start:at], profile, data, answer, lines
    if at != len(words):
        sys.exit("the sample has words behind its last case")


def layout(data):
    for size, sync in ((188, 0), (192, 4), (204, 0)):
        count = min(len(data) // size, 8)
        if count >= 2 and all(data[size * i + sync] == 0x47 for i in range(count)):
            return size
    return 0


def shows(real, profile, data, answer, lines):
    video = [profile[5 + 6 * i + 2] for i in range(profile[1])]
    seen = {("number", answer & 255), ("layout", layout(data)), ("streams", profile[1]), ("system", profile[2] > 0), ("video", sum(video))}
    seen |= {("kind", l[0], l[1] == 0) for l in lines} | {("lines", len(lines))}
    seen |= {("negative time",) for l in lines if l[3] >> 63} | {("place", answer >> 24 > 1)}
    if answer & 255 == 10:
        pid = answer >> 8 & 0xFFFF
        seen |= {("full", video[[profile[5 + 6 * i] for i in range(profile[1])].index(pid)])}
    if real:
        seen |= {("real", answer & 255), ("real", len(lines))}
    return seen


def main():
    raw = open(sys.argv[1], "rb").read()
    words = struct.unpack(f"<{len(raw) // 8}Q", raw)
    found = [(len(w), k, w, a, shows(k < int(sys.argv[2]), p, d, a, l)) for k, w, p, d, a, l in cases(words)]
    kept, counts, size = {}, {}, 8
    for wanted in (EACH, None):
        for length, k, w, a, seen in sorted(found):
            more = wanted is None or any(counts.get(s, 0) < wanted for s in seen)
            if k in kept or not more or len(kept) == MOST_CASES or size + 8 * length > MOST_BYTES:
                continue
            kept[k] = (w, a)
            size += 8 * length
            for s in seen:
                counts[s] = counts.get(s, 0) + 1
    missed = {s for *_, seen in found for s in seen} - set(counts)
    if missed:
        sys.exit(f"not shown: {missed}")
    out = [len(kept)] + [x for k in sorted(kept) for x in kept[k][0]]
    open("data/answers.bin", "wb").write(struct.pack(f"<{len(out)}Q", *out))
    print(f"cases {len(kept)}")
    for number in range(11):
        print(f"number {number}: {sum(a & 255 == number for _, a in kept.values())}")
    print("all equal")


main()
