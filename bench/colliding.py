#!/usr/bin/env python3
"""Times a report of flows that were chosen to collide beside one of flows at random.

    python3 bench/colliding.py [PROGRAM] [--before OLDER_PROGRAM] [--flows N] [--runs N]

Both captures have a UDP packet over IPv6 for each flow, and one bucket has them all. In the one
the source addresses are drawn at random. In the other their high half cancels the multiplier of the
hash that the map of flows takes by default, whose numbers are fixed: under it all those flows have
one hash, so a look-up would pass over every flow that came before. README.md says what is aimed at.
"""

import argparse
import random
import struct
import sys
from pathlib import Path

from run import BUILT, OUT, times

MULTIPLIER = 0x9E37_79B9_7F4A_7C15  # of the default hash
FILE_HEADER = struct.pack("<IHHiIII", 0xA1B2C3D4, 2, 4, 0, 0, 262_144, 1)
ETHERNET = bytes.fromhex("020000000001 020000000002 86dd")
IPV6 = struct.pack(">IHBB", 6 << 28, 8, 17, 64)  # of a payload of 8 bytes, UDP
DESTINATION = bytes.fromhex("20010db8000000000000000000000001")
UDP = struct.pack(">HHHH", 4_000, 53, 8, 0)
WORDS = "report --serial 0 --cores 1 --buckets 1".split()
AIM = 1.5


def capture(name, sources):
    """A capture with a packet from each of these addresses, made where it is missing."""
    path = OUT / f"{name}-{len(sources)}.pcap"
    if path.exists():
        return path
    OUT.mkdir(parents=True, exist_ok=True)
    pieces = [FILE_HEADER]
    for at, source in enumerate(sources):
        frame = ETHERNET + IPV6 + source.to_bytes(16, "big") + DESTINATION + UDP
        pieces.append(struct.pack("<IIII", at // 1_000_000, at % 1_000_000, len(frame), len(frame)) + frame)
    part = path.with_suffix(".part")
    part.write_bytes(b"".join(pieces))
    part.rename(path)
    return path


def main():
    words = argparse.ArgumentParser(description=__doc__.splitlines()[0])
    words.add_argument("program", nargs="?", type=Path, default=BUILT)
    words.add_argument("--before", type=Path)
    words.add_argument("--flows", type=int, default=200_000)
    words.add_argument("--runs", type=int, default=5)
    asked = words.parse_args()
    drawn = random.Random(1)
    at_random = capture("random", [drawn.getrandbits(128) for _ in range(asked.flows)])
    chosen = capture("colliding", [MULTIPLIER << 64 | at for at in range(asked.flows)])
    print(f"{asked.flows:,} flows over IPv6 in one bucket; aimed at: chosen at most {AIM} times random")
    for name, program in ((asked.program.name, asked.program), ("before", asked.before)):
        if program is None:
            continue
        if not program.exists():
            sys.exit(f"colliding.py: {program} isn't built; run ./rsspp once")
        report = [str(program.resolve()), *WORDS]
        times([(f"{name}, chosen", report, chosen), (f"{name}, random", report, at_random)], asked.runs)


if __name__ == "__main__":
    main()
