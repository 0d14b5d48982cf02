"""alter.py TEXT COPY cost|dual: copies a certificate or a proof with the last digit of its cost changed, or with
its first dual raised to 10^15, which fits no matrix here. Prints the number of the changed line, or of the
line at which pair duals begin. Cases use it."""

import re
import sys


def altered(lines, what):
    """The lines, one of them changed, and its number, which counts from 1."""
    for at, line in enumerate(lines):
        if what == "cost" and line.startswith("cost "):
            return lines[:at] + [line[:-1] + str((int(line[-1]) + 1) % 10)] + lines[at + 1:], at + 1
        if what == "dual" and line.startswith("p "):
            raised = re.sub(r"^-?\d+", "1" + "0" * 15, lines[at + 1])
            return lines[:at + 1] + [raised] + lines[at + 2:], at + 1
        duals = re.fullmatch(r"(b|[st] \d+) -?\d+( .*)", line)
        if what == "dual" and duals:
            return lines[:at] + [f"{duals[1]} 1{'0' * 15}{duals[2]}"] + lines[at + 1:], at + 1
    raise SystemExit(f"no {what} in the text")


if __name__ == "__main__":
    source, copy, what = sys.argv[1:]
    with open(source) as file:
        lines, number = altered(file.read().splitlines(), what)
    with open(copy, "w") as file:
        file.write("\n".join(lines) + "\n")
    print(number)
