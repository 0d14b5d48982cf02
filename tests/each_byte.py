"""each_byte.py INSTANCE FILE BYTES WORDS..: runs a command once for each text that differs from FILE in one byte, which
is one of BYTES there, and prints how many texts there were. A text must be refused, or what is shown of it must be true
of all permutations, each of which is tried. Cases use it."""

import itertools
import pathlib
import re
import subprocess
import sys

from checks import cost_of, instance_of

REFUSAL = re.compile(rb"refused \d+ \w+( at \d+)?\n")


def least_below(instance, text):
    """The least cost of the permutations that complete the node of a proof's fifth line, or of all."""
    line = text.decode().splitlines()[4].split()
    numbers = [int(word) - 1 for word in line[1:]] if line[0] == "node" else []
    placed = list(zip(numbers[::2], numbers[1::2]))
    all_of_them = itertools.permutations(range(instance[0]))
    return min(cost_of(instance, p) for p in all_of_them if all(p[f] == k for f, k in placed))


def is_true(verdict, instance, text):
    """Whether a verdict on a text is true."""
    words = verdict.split()
    numbers, least = [int(word) for word in words[1:]], least_below(instance, text)
    if words[0] == "gap":
        return numbers[0] <= least <= numbers[1]
    return numbers[0] == least if words[0] == "optimal" else words[0] == "part" and numbers[0] <= least


def main():
    name, file, others, *words = sys.argv[1:]
    instance, whole = instance_of(pathlib.Path(name).read_text()), pathlib.Path(file).read_bytes()
    count = 0
    for place, other in itertools.product(range(len(whole)), others.encode().decode("unicode_escape").encode()):
        text = whole[:place] + bytes([other]) + whole[place + 1:]
        pathlib.Path(file).write_bytes(text)
        run = subprocess.run(words, capture_output=True, check=False)
        if run.returncode == 1 and not run.stdout:
            well = REFUSAL.fullmatch(run.stderr)
        else:
            is_short = words[0] == "qapverify" and not run.stdout.startswith(b"optimal ")
            ended = 5 if is_short else 0
            well = run.returncode == ended and not run.stderr and is_true(run.stdout.decode(), instance, text)
        if not well:
            sys.exit(f"{text}: {run}")
        count += 1
    print(f"{count} texts")


if __name__ == "__main__":
    main()
