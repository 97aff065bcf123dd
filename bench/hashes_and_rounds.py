#!/usr/bin/env python3
"""Times hashes by tables and rounds by search beside the plain ways.

    python3 bench/hashes_and_rounds.py [--packets N] [--rounds N] [--runs N]

A program of its own stands in hashes_and_rounds/: it draws packets and hashes each of them, bit by
bit or by tables, or it draws the loads of rounds and makes each round, by the plain choice among all
pairs or by search. What drawing alone takes is timed too, and subtracted from both ways, which have
to print the same number. It is proved and built in a scratch copy of the crates.
"""

import argparse

from proved import best_of, build, machine

STANDS_ON = "balancer indirection toeplitz packet_fields rss_base"
TABLES = (64, 2048), (64, 512), (4, 128)  # cores and buckets
LARGEST = 64 * 2048


def main():
    words = argparse.ArgumentParser(description=__doc__.splitlines()[0])
    words.add_argument("--packets", type=int, default=5_000_000)
    words.add_argument("--rounds", type=int, default=200, help="for the largest table; for others more")
    words.add_argument("--runs", type=int, default=5)
    asked = words.parse_args()
    program = build("hashes_and_rounds", STANDS_ON, ["hashes", "quick", "1", "4"])

    def each(count, what, *rest):
        """Seconds of processor for each of so many: drawing, and beyond it the plain way and the quick one."""
        rows = [(program, what, way, str(count), *map(str, rest)) for way in ("none", "plain", "quick")]
        (none, _), (plain, by_plain), (quick, by_quick) = best_of(rows, asked.runs)
        if by_plain != by_quick:
            raise SystemExit(f"hashes_and_rounds.py: {' '.join(rows[1])} came to another number than {' '.join(rows[2])}")
        drawn = none.processor
        return [took / count for took in (drawn, plain.processor - drawn, quick.processor - drawn)]

    print(f"{machine()}, best of {asked.runs} runs; processor time, drawing subtracted")
    for version in (4, 6):
        drawn, plain, quick = (took * 1e9 for took in each(asked.packets, "hashes", version))
        print(
            f"hash of a packet over IPv{version} with ports: {plain:.1f} ns bit by bit, {quick:.1f} by tables, "
            f"{quick / plain:.3f} times (drawing it: {drawn:.1f})"
        )
    for cores, buckets in TABLES:
        count = asked.rounds * LARGEST // (cores * buckets)
        drawn, plain, quick = (took * 1e6 for took in each(count, "rounds", cores, buckets))
        print(
            f"round for {buckets} buckets and {cores} cores: {plain:.1f} us by the plain choice, {quick:.1f} by search, "
            f"{quick / plain:.3f} times (drawing its loads: {drawn:.1f})"
        )
    print(f"{machine()} at the end")


if __name__ == "__main__":
    main()
