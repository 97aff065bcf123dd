#!/usr/bin/env python3
"""Writes the records of a little-endian classic capture of microseconds as a pcapng capture.

    python3 bench/to_pcapng.py bench/out/mix.pcap bench/out/mix.pcapng

One section, one interface, and an enhanced packet block for each record.
"""

import struct
import sys
from pathlib import Path

HEADER, RECORD_HEADER = 24, 16  # bytes of a classic capture
MICROS = 0xA1B2C3D4


def block(kind, body):
    body += bytes(-len(body) % 4)
    length = struct.pack("<I", 12 + len(body))
    return struct.pack("<I", kind) + length + body + length


def blocks(capture):
    magic, _, _, _, _, snap_length, link = struct.unpack_from("<IHHiIII", capture)
    if magic != MICROS:
        sys.exit("to_pcapng: this is no little-endian capture of microseconds")
    yield block(0x0A0D0D0A, struct.pack("<IHHq", 0x1A2B3C4D, 1, 0, -1))
    yield block(1, struct.pack("<HHI", link, 0, snap_length))
    at = HEADER
    while at < len(capture):
        seconds, micros, captured, original = struct.unpack_from("<IIII", capture, at)
        high, low = divmod(seconds * 1_000_000 + micros, 1 << 32)
        at += RECORD_HEADER
        frame = capture[at : at + captured]
        yield block(6, struct.pack("<IIIII", 0, high, low, captured, original) + frame)
        at += captured


def main():
    if len(sys.argv) != 3:
        sys.exit(__doc__)
    with open(sys.argv[2], "wb") as out:
        out.writelines(blocks(Path(sys.argv[1]).read_bytes()))


if __name__ == "__main__":
    main()
