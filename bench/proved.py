"""Programs of a benchmark's own, which are proved and built in a scratch copy of the crates, and run.

Their files end in .txt, since the gate takes no others outside a crate.
"""

import os
import shutil
import subprocess
import sys
import tempfile
from pathlib import Path

from run import OUT, better, run

HERE = Path(__file__).resolve().parent
ROOT = HERE.parent
COPY = OUT / "scratch"
COUNTER = OUT / "allocations.so"


def copy_files(source, target):
    """Copies the files of a crate, and leaves what earlier checks kept of it in out/."""
    for old in target.glob("*"):
        if old.name != "out":
            shutil.rmtree(old) if old.is_dir() else old.unlink()
    shutil.copytree(source, target, dirs_exist_ok=True, ignore=shutil.ignore_patterns("out"))


def build(name, stands_on, words, source=os.devnull):
    """Proves and builds the program of a folder, runs it once, and answers its path."""
    for crate in (ROOT / "crates").iterdir():
        copy_files(crate, COPY / "crates" / crate.name)
    shutil.copy(ROOT / "HANDLES", COPY)
    (COPY / "crates.txt").write_text((ROOT / "crates.txt").read_text() + f"{name}_bench: {stands_on}\n")
    crate = COPY / "crates" / f"{name}_bench"
    copy_files(HERE / name, crate)
    for text in crate.rglob("*.txt"):
        text.rename(text.with_suffix(""))
    with open(source, "rb") as given:
        made = subprocess.run(["rt", "run", "--", *words], cwd=crate, stdin=given, capture_output=True, text=True)
    if made.returncode != 0:
        sys.exit(f"{name}_bench isn't proved, or fails:\n{made.stdout[-2000:]}{made.stderr[-2000:]}")
    return str(crate / "out" / f"{name}_bench")


def told(words, source=os.devnull):
    """What a run took, and the numbers that it printed."""
    with tempfile.TemporaryFile() as out:
        ended = run(words, source, out)
        out.seek(0)
        numbers = [int(number) for number in out.read().split()]
    if ended.status != 0:
        sys.exit(f"{' '.join(words)}: it ended with status {ended.status}: {ended.notes}")
    return ended, numbers


def best_of(rows, runs, source=os.devnull):
    """For each command, the best time of some runs and the numbers of the last. They take turns."""
    best = {}
    for _ in range(runs):
        for words in rows:
            ended, numbers = told(words, source)
            best[words] = (better(ended, best.get(words, (ended,))[0]), numbers)
    return [best[words] for words in rows]


def allocations(words, source=os.devnull):
    """How many allocations a run makes."""
    made = ["cc", "-shared", "-fPIC", "-O2", "-o", str(COUNTER), str(HERE / "allocations.c"), "-ldl"]
    subprocess.run(made, check=True)
    ended, _ = told(("env", f"LD_PRELOAD={COUNTER}", *words), source)
    return int(ended.notes)


def machine():
    """The processors and their load."""
    return f"{os.cpu_count()} processors, load {os.getloadavg()[0]:.1f}"
