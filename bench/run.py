#!/usr/bin/env python3
"""Times the built program beside a plain C meter, and beside the flow meters that are installed.

    python3 bench/run.py [PROGRAM] [--before OLDER_PROGRAM] [--runs N] [--records N] [--only SECTION]

README.md says what each figure means. Everything that it makes stands in bench/out/.
"""

import argparse
import filecmp
import os
import shlex
import shutil
import subprocess
import sys
import tempfile
import threading
import time
from dataclasses import dataclass
from pathlib import Path

HERE = Path(__file__).resolve().parent
OUT = HERE / "out"
METER = OUT / "meter"
BUILT = HERE.parent / "crates" / "rsspp_main" / "out" / "rsspp_main"
WORDS_REFUSED = 2  # the status of a program that doesn't know the words yet
FEW, MANY, MOST = 1_000, 100_000, 1_000_000  # flows
SLOW = 5  # a command that takes more seconds is run once
LIMIT = 60  # and one that takes so many is ended
SECTIONS = ("reports", "threads", "memory", "forms", "pcapng", "generated", "calls", "plans")

# Tools that its users have today. FILE stands for the capture.
OTHERS = {
    "tshark": "tshark -n -q -z conv,tcp -r FILE",
    "argus": "argus -X -r FILE -w -",
    "softflowd": f"softflowd -d -m 1000000 -p {OUT}/softflowd.pid -c {OUT}/softflowd.ctl -r FILE",
    "nfpcapd": f"nfpcapd -w {OUT}/nfpcapd -r FILE",
}

# A report is a run: on one thread in an order that a number determines, or in threads.
RUNS = ("--serial 0", "--cores 1", "--cores 2", "--cores 4", "--cores 64")

# A run that opens as much as any, on one thread.
LARGEST = "--serial 0 --cores 64 --buckets 2048 --pool 4096".split()

# The words of all other options but --journal, the longest values among them.
OTHER_OPTIONS = "--work count --round 1000 --limit 4 --packets 1000".split()
OTHER_OPTIONS += ["--key", "6d" * 40, "--table", ",".join(str(b % 64) for b in range(2048))]
OTHER_OPTIONS += ["--moves", ",".join(f"{at}:0:1" for at in range(4096))]


@dataclass
class Run:
    """How a command ended, and what it took. Seconds of processor are user and system together."""

    status: int
    notes: str
    processor: float
    clock: float


def run(words, source, out=subprocess.DEVNULL):
    """Runs a command with a file as its standard input."""
    with open(source, "rb") as capture, tempfile.TemporaryFile() as notes:
        begin = time.perf_counter()
        child = subprocess.Popen(words, stdin=capture, stdout=out, stderr=notes)
        limit = threading.Timer(LIMIT, child.kill)
        limit.start()
        _, status, usage = os.wait4(child.pid, 0)
        limit.cancel()
        clock = time.perf_counter() - begin
        child.returncode = os.waitstatus_to_exitcode(status)
        notes.seek(0)
        said = notes.read().decode(errors="replace").splitlines()
    processor = usage.ru_utime + usage.ru_stime
    return Run(child.returncode, said[-1] if said else "", processor, clock)


def why_skipped(ended):
    if ended.status == WORDS_REFUSED and ended.notes.startswith("rsspp: "):
        return "skipped: the program doesn't know these words yet"
    if ended.clock >= LIMIT:
        return f"skipped: it took more than {LIMIT} seconds"
    return f"skipped: it ended with status {ended.status}: {ended.notes}"


def better(one, other):
    return Run(0, "", min(one.processor, other.processor), min(one.clock, other.clock))


def times(rows, runs):
    """Prints the best of some runs of each command, and the ratio of its time to the last one's.

    A row is a name, a command and the file that it reads. The commands take turns.
    """
    best, skipped = {}, {}
    for _ in range(runs):
        for name, words, source in rows:
            if name in skipped or (name in best and best[name].clock > SLOW):
                continue
            ended = run(words, source)
            if ended.status == 0:
                best[name] = better(ended, best.get(name, ended))
            else:
                skipped[name] = why_skipped(ended)
    last = rows[-1][0]
    print(f"  {'':<22}{'processor ms':>14}{'clock ms':>12}   ratio to {last}")
    for name, _, _ in rows:
        if name in skipped:
            print(f"  {name:<22}{skipped[name]}")
            continue
        took = best[name]
        ratio = f"{took.processor / best[last].processor:.2f}" if last in best else "-"
        print(f"  {name:<22}{took.processor * 1e3:>14.1f}{took.clock * 1e3:>12.1f}{ratio:>11}")


class Bench:
    """The sections, each over one program."""

    def __init__(self, options):
        self.program = str(options.program.resolve())
        self.before = options.before and str(options.before.resolve())
        self.runs = options.runs
        self.records = options.records
        self.differ = False

    def capture(self, flows, magic="le-micro", records=None, whole=False):
        """A capture of bench/out/, made where it is missing."""
        records = records or self.records
        flows = min(flows, records)
        path = OUT / f"{records}-{flows}-{magic}{'-whole' if whole else ''}.pcap"
        if not path.exists():
            print(f"  (making {path.name})")
            part = path.with_suffix(".part")
            words = [sys.executable, str(HERE / "make_capture.py"), str(part), "--magic", magic]
            words += ["--records", str(records), "--flows", str(flows)]
            subprocess.run(words + (["--whole"] if whole else []), check=True)
            part.rename(path)
        return path

    def is_same_report(self, path):
        """Says whether the program and the C meter write the same bytes for a capture."""
        reports = OUT / "report.program", OUT / "report.meter"
        for words, report in zip(([self.program, "report"], [str(METER)]), reports):
            with open(report, "wb") as out:
                ended = run(words, path, out)
            if ended.status != 0:
                print(f"  {Path(words[0]).name} on {path.name}: {why_skipped(ended)}")
                return False
        is_same = filecmp.cmp(*reports, shallow=False)
        print(f"  {path.name}: {'the same report as the C meter' if is_same else 'REPORTS DIFFER'}")
        self.differ |= not is_same
        return is_same

    def report_rows(self, path):
        rows = [("rsspp report", [self.program, "report"], path)]
        if self.before:
            rows.append(("the older rsspp", [self.before, "report"], path))
        return rows

    def yardsticks(self, path):
        return [("cat", ["cat"], path), ("C meter", [str(METER)], path)]

    def reports(self):
        whole = self.capture(FEW, records=max(self.records // 5, 1), whole=True)
        for path in (self.capture(FEW), self.capture(MANY), whole):
            print(f"\n== Report of {path.stem}, {path.stat().st_size / 1e6:.0f} MB")
            self.is_same_report(path)
            rows = self.report_rows(path)
            rows.append(("rsspp hash", [self.program, "hash"], path))
            for name, words in OTHERS.items():
                if shutil.which(name):
                    rows.append((name, words.replace("FILE", str(path)).split(), path))
                else:
                    print(f"  {name:<22}skipped: not installed")
            times(rows + self.yardsticks(path), self.runs)

    def threads(self):
        for flows in (FEW, MANY, MOST):
            path = self.capture(flows)
            print(f"\n== Runs over {path.stem}")
            self.is_same_report(path)
            rows = [(words, [self.program, "report", *words.split()], path) for words in RUNS]
            if self.before:
                for words in ("--serial 0", "--cores 4"):
                    rows.append((f"older {words}", [self.before, "report", *words.split()], path))
            times(rows + self.yardsticks(path), self.runs)

    def memory(self):
        print("\n== Memory")
        if not shutil.which("time"):
            print("  skipped: /usr/bin/time isn't installed")
            return
        few, many = self.capture(FEW), self.capture(MANY)
        flows = [min(count, self.records) for count in (FEW, MANY)]
        print(f"  {'peak KiB at':<22}{flows[0]:>8} flows{flows[1]:>8} flows{'bytes a flow':>14}")
        for name, words, _ in self.report_rows(few) + self.yardsticks(few)[1:]:
            peaks = [peak_kibibytes(words, path) for path in (few, many)]
            if None in peaks:
                print(f"  {name:<22}skipped: it didn't end with status 0")
                continue
            a_flow = (peaks[1] - peaks[0]) * 1024 / max(flows[1] - flows[0], 1)
            print(f"  {name:<22}{peaks[0]:>14}{peaks[1]:>14}{a_flow:>14.0f}")

    def forms(self):
        for magic in ("le-nano", "be-micro", "be-nano"):
            path = self.capture(MANY, magic)
            print(f"\n== Report of {path.stem}")
            self.is_same_report(path)
            times(self.report_rows(path) + self.yardsticks(path), self.runs)

    def pcapng(self):
        path = self.capture(MANY)
        newer = path.with_suffix(".pcapng")
        if not newer.exists():
            part = newer.with_suffix(".part")
            subprocess.run([sys.executable, str(HERE / "to_pcapng.py"), path, part], check=True)
            part.rename(newer)
        print(f"\n== Report of {path.stem} as pcapng, {newer.stat().st_size / 1e6:.0f} MB")
        report, texts = [self.program, "report"], (OUT / "report.pcapng", OUT / "report.classic")
        for source, text in zip((newer, path), texts):
            with open(text, "wb") as out:
                run(report, source, out)
        is_same = filecmp.cmp(*texts, shallow=False)
        print(f"  {'the same report as of the classic capture' if is_same else 'REPORTS DIFFER'}")
        self.differ |= not is_same
        for words in RUNS[:4]:
            command = report + words.split()
            times([(f"pcapng, {words}", command, newer), ("classic", command, path)], self.runs)

    def generated(self):
        print(f"\n== Generated traffic: make {self.records} 1")
        make, made = [self.program, "make", str(self.records), "1"], OUT / "generated.pcap"
        with open(made, "wb") as out:
            ended = run(make, os.devnull, out)
        if ended.status != 0:
            print(f"  {why_skipped(ended)}")
            return
        self.is_same_report(made)
        piped = f"{shlex.join(make)} | {shlex.join([self.program, 'report'])}"
        rows = [("rsspp make", make, os.devnull), ("make | report", ["sh", "-c", piped], os.devnull)]
        times(rows + self.report_rows(made)[:1], self.runs)

    def calls(self):
        print("\n== Calls of the system")
        if not shutil.which("strace"):
            print("  skipped: strace isn't installed")
            return
        path = self.capture(MANY)
        print(f"  {'':<22}{'reads':>10}{'bytes a read':>14}{'writes':>10}")
        for name, words, _ in self.report_rows(path) + self.yardsticks(path):
            counts = calls_of(words, path)
            if counts is None:
                print(f"  {name:<22}skipped: it didn't end with status 0")
                continue
            reads, writes = counts
            print(f"  {name:<22}{reads:>10}{path.stat().st_size / max(reads, 1):>14.0f}{writes:>10}")

    def plans(self):
        print("\n== Plans of 512 buckets on 64 cores, and words")
        texts = {limit: plan_text(limit) for limit in (16, 0)}
        empty = OUT / "empty.pcap"
        empty.write_bytes(self.capture(FEW).read_bytes()[:24])
        plan, report = [self.program, "plan"], [self.program, "report"]
        rows = [(f"plan, limit {limit}", plan, text) for limit, text in texts.items()]
        rows.append(("report of 1,000", report, self.capture(FEW, records=1_000)))
        rows.append(("report of nothing", report, empty))
        rows.append(("largest opening", report + LARGEST, empty))
        rows.append(("all other options", report + LARGEST + OTHER_OPTIONS, empty))
        times(rows, 10 * self.runs)


def plan_text(limit):
    """A plan text whose first cores carry most, in bench/out/."""
    path = OUT / f"plan-{limit}.txt"
    lines = ["cores 64", f"limit {limit}", "base" + " 0" * 64]
    lines += [f"bucket {b % 64} {1000 * (64 - b % 64) + 7 * b}" for b in range(512)]
    path.write_text("\n".join(lines) + "\n")
    return path


def peak_kibibytes(words, source):
    """The most memory that a command had, or None. (wait4 would count this process's own too.)"""
    with tempfile.NamedTemporaryFile("r") as figure:
        time_words = [shutil.which("time"), "-f", "%M", "-o", figure.name]
        ended = run(time_words + words, source)
        return int(figure.read()) if ended.status == 0 else None


def calls_of(words, source):
    """How many calls a command makes to read and to write, or None where it fails."""
    with tempfile.NamedTemporaryFile("r") as table:
        strace = ["strace", "-f", "-c", "-e", "trace=read,readv,write,writev", "-o", table.name]
        ended = run(strace + words, source)
        if ended.status != 0:
            return None
        lines = [line.split() for line in table]
    counts = {parts[-1]: int(parts[3]) for parts in lines if len(parts) >= 5 and parts[3].isdigit()}
    return tuple(counts.get(call, 0) + counts.get(call + "v", 0) for call in ("read", "write"))


def build_meter():
    source = HERE / "meter.c"
    if METER.exists() and METER.stat().st_mtime >= source.stat().st_mtime:
        return
    if not shutil.which("cc"):
        sys.exit("bench: cc isn't installed, and the C meter is the yardstick")
    subprocess.run(["cc", "-O2", "-o", str(METER), str(source)], check=True)


def main():
    words = argparse.ArgumentParser(description="Times the built program beside other flow meters.")
    words.add_argument("program", nargs="?", type=Path, default=BUILT)
    words.add_argument("--before", type=Path, help="an older build of the program, timed beside it")
    words.add_argument("--runs", type=int, default=5, help="the best of so many runs counts")
    words.add_argument("--records", type=int, default=1_000_000, help="records of a capture")
    words.add_argument("--only", choices=SECTIONS, help="this section alone")
    options = words.parse_args()
    if not os.access(options.program, os.X_OK):
        sys.exit(f"bench: {options.program} isn't built: ./rsspp report < examples/home.pcap builds it")
    sys.stdout.reconfigure(line_buffering=True)
    (OUT / "nfpcapd").mkdir(parents=True, exist_ok=True)
    build_meter()
    load = os.getloadavg()[0]
    print(f"{os.cpu_count()} processors, load {load:.1f} at the start; best of {options.runs} runs")
    bench = Bench(options)
    for section in [options.only] if options.only else SECTIONS:
        getattr(bench, section)()
    sys.exit("bench: reports differ" if bench.differ else 0)


if __name__ == "__main__":
    main()
