"""refuse_each.py WORDS..: runs a command once for each of its allocations, with that one refused, and prints the last
line of the usual run, and which runs ended otherwise than they may: as usual (status 0), with an early end of the search
that it reports (5), or with a report that memory ran out (3). A run of more than twenty seconds has stalled. Needs a C
compiler, `cc`, and refuse.c beside it. Cases use it."""

import os
import pathlib
import subprocess
import sys
import tempfile

HERE = pathlib.Path(__file__).resolve().parent
SECONDS = 20


def build(folder):
    """The library that refuses an allocation."""
    library = folder / "refuse.so"
    subprocess.run(["cc", "-O2", "-shared", "-fPIC", HERE / "refuse.c", "-o", library, "-ldl"], check=True)
    return library


def run(library, words, **variables):
    """What a run prints, and its status; None if it stalls."""
    environment = {**os.environ, "LD_PRELOAD": str(library), **variables}
    try:
        return subprocess.run(words, env=environment, capture_output=True, timeout=SECONDS, stdin=subprocess.DEVNULL)
    except subprocess.TimeoutExpired:
        return None


def fault(ended, usual):
    """What is wrong with how a run ended, if anything is."""
    if ended is None:
        return "stalled"
    if ended.returncode == 3:
        return None if b"out of memory" in ended.stderr else "status 3 without a reason"
    if ended.returncode == 5:
        return None if b", within " in ended.stdout else "status 5 without bounds"
    if ended.returncode != 0:
        return f"status {ended.returncode}"
    return None if ended.stdout.splitlines()[-1:] == usual.stdout.splitlines()[-1:] else "another answer"


def main(words):
    with tempfile.TemporaryDirectory() as name:
        folder = pathlib.Path(name)
        library = build(folder)
        usual = run(library, words, COUNT=str(folder / "count"))
        count = int((folder / "count").read_text())
        faults = [(number, fault(run(library, words, REFUSE=str(number)), usual)) for number in range(1, count + 1)]
    told = "".join(f"\nallocation {number} of {count}: {said}" for number, said in faults if said)
    print(f"{usual.stdout.decode().splitlines()[-1]}; {'some' if told else 'no'} run ended otherwise{told}")


main(sys.argv[1:])
