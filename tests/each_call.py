"""each_call.py read|write DESCRIPTOR WORDS..: runs a command with one read or write of a descriptor failing, each in
turn, and then prints what the command prints where none fails, and how many there were. All its reads and writes move
a byte at most. Its standard input is the file or folder `input`, if that is there. The status is the command's. Cases
use it.

A run whose read fails reads no more and reports the refusal of a device; nothing was printed before, except that
`qapsolve script` has replied to each whole line. A run whose write of standard output fails, once or from then on,
reports the same, and the beginning of the answer was written. Where the write of a refusal fails, its beginning was
written, and the status stays."""

import os
import pathlib
import subprocess
import sys
from dataclasses import dataclass

DEVICE = b"refused 51 Device\n"
INPUT = pathlib.Path("input")


@dataclass
class Run:
    """What a run printed, its status, how many calls failed in it, and how many reads came after the first of these."""

    stdout: bytes
    stderr: bytes
    status: int
    failed: int
    later_reads: int


def run(words, fail):
    """Runs a command with this call failing."""
    environment = {**os.environ, "FAIL": fail, "REPORT": "report", "LD_PRELOAD": "./fail_io.so"}
    given = os.open(INPUT if INPUT.exists() else os.devnull, os.O_RDONLY)
    ended = subprocess.run(words, stdin=given, capture_output=True, env=environment, check=False)
    os.close(given)
    counts = map(int, pathlib.Path("report").read_text().split())
    return Run(ended.stdout, ended.stderr, ended.returncode, *counts)


def read_fails(words, descriptor, number, whole):
    """The runs whose read of this number fails, and whether they ended as they should."""
    taken = INPUT.read_bytes()[:number - 1] if "script" in words else b""
    commands = [line for line in taken.split(b"\n")[:-1] if line]
    answer = b"".join(whole.stdout.splitlines(keepends=True)[:len(commands)])
    ended = run(words, f"read {descriptor} {number}")
    yield ended, ended == Run(answer, DEVICE, 1, ended.failed, 0)


def output_fails(words, descriptor, number, whole):
    """The same of writes of standard output. What was kept back when a write failed once may be written at the end."""
    once = run(words, f"write {descriptor} {number}")
    is_beginning = whole.stdout.startswith(once.stdout) and len(once.stdout) >= number - 1
    yield once, is_beginning and (once.stderr, once.status) == (DEVICE, 1)
    ended = run(words, f"write {descriptor} {number}+")
    yield ended, (ended.stdout, ended.stderr, ended.status) == (whole.stdout[:number - 1], DEVICE, 1)


def refusal_fails(words, descriptor, number, whole):
    """The same of writes of standard error."""
    ended = run(words, f"write {descriptor} {number}+")
    yield ended, (ended.stdout, ended.stderr, ended.status) == (whole.stdout, whole.stderr[:number - 1], whole.status)


def main():
    kind, descriptor, *words = sys.argv[1:]
    subprocess.run(["cc", "-O2", "-shared", "-fPIC", "-o", "fail_io.so", "fail_io.c"], check=True)
    outcomes = {"read": read_fails, "write": refusal_fails if descriptor == "2" else output_fails}[kind]
    whole = run(words, "")
    number = 1
    while run(words, f"{kind} {descriptor} {number}").failed > 0:
        for ended, is_right in outcomes(words, descriptor, number, whole):
            if not is_right:
                sys.exit(f"{kind} {number} of {descriptor} fails: {ended}")
        number += 1
    if run(words, f"{kind} {descriptor} {number}") != whole:
        sys.exit(f"{kind} {number} of {descriptor} is never made, and the run differs")
    sys.stdout.buffer.write(whole.stdout + f"{number - 1} calls\n".encode())
    sys.stderr.buffer.write(whole.stderr)
    return whole.status


if __name__ == "__main__":
    sys.exit(main())
