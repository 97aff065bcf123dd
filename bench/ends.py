#!/usr/bin/env python3
"""Times a packet's way through the ends of one core, local and shared, and counts what it allocates.

    python3 bench/ends.py [--packets N] [--runs N]

A program of its own stands in ends/: for each packet it takes a cell of the pool, fills it, sends it
on the lane, and has the worker take, work (with the work `count`) and give it back, over local ends
or over the ends that threads share; or it has one thread send and another take, without a worker,
and then the time is that on the clock. It is proved and built in a scratch copy of the crates.
"""

import argparse

from proved import allocations, best_of, build, machine

STANDS_ON = (
    "worker_loop core_queue parked_queue handover_words load_meter packet_pool bucket_table "
    "handover_core toeplitz flow_work packet_fields indirection known rss_base atomic_table "
    "crossbeam_queue"
)
ENDS = ("local", "shared", "threads")


def main():
    words = argparse.ArgumentParser(description=__doc__.splitlines()[0])
    words.add_argument("--packets", type=int, default=10_000_000)
    words.add_argument("--runs", type=int, default=5)
    asked = words.parse_args()
    program = build("ends", STANDS_ON, ["local", "1"])

    def through(ends, buckets):
        return program, ends, str(asked.packets), str(buckets)

    def best(*rows):
        """The best times of these, for a packet, in nanoseconds of processor and on the clock."""
        for took, (passed,) in best_of(rows, asked.runs):
            if passed != asked.packets:
                raise SystemExit(f"ends.py: {passed} packets got through, not {asked.packets}")
            yield took.processor / asked.packets * 1e9, took.clock / asked.packets * 1e9

    print(f"{machine()}, best of {asked.runs} runs of {asked.packets:,} packets")
    for buckets in (1, 128, 512, 2048):
        (local, _), (shared, _) = best(through("local", buckets), through("shared", buckets))
        print(
            f"one thread, {buckets} buckets: {local:.0f} ns of processor for a packet through local ends, "
            f"{shared:.0f} through shared ones, {shared / local:.2f} times"
        )
    ((processor, clock),) = best(through("threads", 1))
    print(f"two threads, lane and pool alone: {clock:.0f} ns on the clock for a packet, {processor:.0f} of processor")
    for ends in ENDS:
        few, many = (allocations((program, ends, str(packets))) for packets in (1, asked.packets))
        print(f"allocations, {ends}: {few:,} for 1 packet, {many:,} for {asked.packets:,}")
    print(f"{machine()} at the end")


if __name__ == "__main__":
    main()
