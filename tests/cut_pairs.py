#!/usr/bin/env python3
"""cut_pairs.py DEPTH < PROOF: cuts a proof `qapproof 2` (docs/PAIR_PROOFS.md) DEPTH levels below its root, and states the bound 0.

Each split at that depth becomes a leaf with the numbers of its line; what is below it is left out."""
import sys


def tree(lines, depth):
    """Prints the next tree, if the depth is not negative, with leaves at depth 0."""
    def say(line):
        if depth >= 0:
            print(line)
    line = next(lines)
    while line[:1] not in "xstmg" or line == "":  # pair duals of its own
        say(line)
        line = next(lines)
    words = line.split(" ")
    if words[0] not in "st":
        return say(line)
    say(line if depth > 0 else " ".join(["x"] + words[3:]))
    for _ in range(words[2].count("+")):
        tree(lines, depth - 1)


lines = iter(sys.stdin.read().split("\n"))
for _ in range(4):
    print(next(lines))
print("bound 0")
tree(lines, int(sys.argv[1]))
print("end")
