"""Keeps results of the scripts under bench/: with the option --record each of them appends a line for each of its rows to results.tsv.

A line has the commit, the machine and toolchain, the date, the row, its value, its aim and how it was measured, with tabs between.
A value is a text; ` | ` stands between the cells of a row that has several. bin/speed makes docs/SPEED.md of the latest lines.
"""
import datetime
import os
import pathlib
import platform
import subprocess
import sys
import time

HERE = pathlib.Path(__file__).resolve().parent
ROOT = HERE.parent
RESULTS = HERE / "results.tsv"
FIELDS = ("commit", "machine", "date", "row", "value", "aim", "method")
ARGUMENTS = [word for word in sys.argv[1:] if word != "--record"]
REQUESTED = len(ARGUMENTS) < len(sys.argv) - 1

def processors_busy(seconds):
    """How many processors are busy, in the mean over some time in which the script itself does nothing. 0 where that can't be seen."""
    def ticks():
        numbers = [int(word) for word in pathlib.Path("/proc/stat").read_text().split("\n")[0].split()[1:9]]
        return sum(numbers), numbers[3] + numbers[4]  # All, and those of them that are idle or wait for a device.

    try:
        (all_before, idle_before), _, (all_after, idle_after) = ticks(), time.sleep(seconds), ticks()
    except (OSError, ValueError, IndexError):
        return 0
    return os.cpu_count() * (1 - (idle_after - idle_before) / max(all_after - all_before, 1))


def is_loaded():
    """Whether something else computes on this machine."""
    return processors_busy(0.5) > 0.3


def printed(*command):
    """The first line that a command prints, or nothing where there is no such command or it fails."""
    try:
        run = subprocess.run(command, cwd=HERE, capture_output=True, text=True, check=True)
    except (OSError, subprocess.CalledProcessError):
        return ""
    return run.stdout.partition("\n")[0]


LOADED = REQUESTED and is_loaded()


def commit():
    """The commit that is measured, with a + where sources were changed since."""
    changed = printed("git", "status", "--porcelain", "--", "../crates", ".", ":!results.tsv")
    return printed("git", "rev-parse", "--short=8", "HEAD") + ("+" if changed else "")


def machine():
    """The processor, how many of it there are, and the toolchain."""
    try:
        lines = pathlib.Path("/proc/cpuinfo").read_text().splitlines()
    except OSError:
        lines = []
    model = next((line.partition(":")[2].strip() for line in lines if line.startswith("model name")), platform.machine())
    toolchain = printed("rt", "version").partition(" ")[0]
    return ", ".join(filter(None, [f"{os.cpu_count()} x {model}", toolchain]))


def program(name):
    """Where the program lies that bin/NAME runs. A shipped program of other sources than these is not recorded."""
    choose = ["sh", "-c", 'root=$1; . "$root/bin/launch"; chosen "$2"', "sh", ROOT, name]
    run = subprocess.run(choose, capture_output=True, text=True)
    sys.stderr.write(run.stderr)
    if run.returncode or (REQUESTED and run.stderr):
        sys.exit(f"{name} is not measured")
    return run.stdout.strip()


def add(row, *values, aim="", method=""):
    """Appends a row, if that was requested. A list of values is one cell."""
    if not REQUESTED:
        return
    cells = [", ".join(map(str, value)) if isinstance(value, (list, tuple)) else str(value) for value in values]
    if LOADED or is_loaded():
        method = f"{method}, loaded" if method else "loaded"
    today = datetime.datetime.now(datetime.timezone.utc).date().isoformat()
    with open(RESULTS, "a") as results:
        results.write("\t".join([commit(), machine(), today, row, " | ".join(cells), aim, method]) + "\n")


def latest():
    """The latest line of each row, by the row's name."""
    lines = RESULTS.read_text().splitlines()
    if lines[0].split("\t") != list(FIELDS):
        sys.exit(f"{RESULTS}: the first line doesn't name the fields")
    found = {}
    for number, line in enumerate(lines[1:], 2):
        cells = line.split("\t")
        if len(cells) != len(FIELDS):
            sys.exit(f"{RESULTS}: line {number} has {len(cells)} fields")
        result = dict(zip(FIELDS, cells))
        found.pop(result["row"], None)
        found[result["row"]] = result
    return found
