"""Certificates that are cut short or changed in one byte, have numbers of a million digits, split down to each
permutation, or split as deep as they can."""

import itertools

THREE = "3 0 1 2 1 0 3 2 3 0 0 5 2 5 0 1 2 1 0"
# Each permutation costs 1.
EVEN = "3 0 1 0 0 0 1 1 0 0 0 1 0 1 0 0 0 0 0"
EVEN_HEAD = "n 3|cost 1|perm 1 2 3"

# An instance, the lines of a certificate, and what is printed of it, on standard output or on standard error.
CUT_SHORT = [
    (EVEN, f"qapcert 1|{EVEN_HEAD}|s|b 0 0 1 0|b 0 0 1 0|b 1 0 0 0|end", "optimal 1"),
    (EVEN, f"qapcert 2|{EVEN_HEAD}|s 2|b 0 0 1 0|b 0 0 1 0|b 0 1 0 0|end", "optimal 1"),
    (EVEN, f"qapcert 2|{EVEN_HEAD}|bound 0|b 0 0 0 0 0 0|end", "gap 0 1"),
    (THREE, "qapcert 1|n 3|cost 24|perm 1 2 3|b 9 10 12 0 -2 -5|end", "optimal 24"),
    (THREE, "qapcert 2|n 3|cost 24|perm 1 2 3|b 9 10 12 0 -2 -5|end", "optimal 24"),
    # The cost is another one, and the duals of the first bound don't fit.
    (EVEN, "qapcert 2|n 3|cost 2|perm 1 2 3|s 2|b 0 0 9 0|b 0 0 1 0|b 0 1 0 0|end", "refused 16 CostDiffers at 3"),
]

# The lines of certificates of which each byte is changed, for the instance whose permutations all cost 1.
CHANGED = [
    f"qapcert 1|{EVEN_HEAD}|s|b 0 0 1 0|b 0 0 1 0|b 1 0 0 0|end",
    f"qapcert 2|{EVEN_HEAD}|s 2|b 0 0 1 0|s 1|b 0 0|b 1 0|b 0 1 0 0|end",
    f"qapcert 2|{EVEN_HEAD}|bound -5|b 0 0 0 0 0 0|end",
    f"qapcert 2|{EVEN_HEAD}|b 0 0 0 0 0 0|end",
]
INSTEAD = "012-s \\nbe"

# The lines before a number of a million nines and after it, and the refusal.
MILLIONS = [
    ("qapcert 2|n ", "|cost 1", "13 BadLine at 2"),
    ("qapcert 2|n 3|cost -", "|perm 1 2 3|", "13 BadLine at 3"),
    ("qapcert 2|n 3|cost 1|perm 1 2 ", "|s 1|", "17 PermBad at 4"),
    (f"qapcert 1|{EVEN_HEAD}|b ", " 0 0 0 0 0|end|", "20 DualRange at 5"),
    (f"qapcert 2|{EVEN_HEAD}|bound 0|b 0 0 0 0 0 -", "|end|", "20 DualRange at 6"),
    (f"qapcert 2|{EVEN_HEAD}|s ", "|end|", "13 BadLine at 5"),
]


def escaped(lines):
    return lines.replace("|", "\\n")


def cases():
    for number, (instance, lines, printed) in enumerate(CUT_SHORT):
        yield from beginnings(number, instance, lines.replace("|", "\n") + "\n", printed)
    for number, lines in enumerate(CHANGED):
        yield f"case: {number}: each byte changed\nuse: tests/checks.py tests/each_byte.py"
        yield f"bytes a.dat: {EVEN}\nbytes a.cert: {escaped(lines)}\\n"
        yield f"run: python3 each_byte.py a.dat a.cert '{INSTEAD}' qapcheck optimal a.dat a.cert"
        yield f"stdout: {9 * (len(lines) + 1)} texts"
    for number, (front, end, refusal) in enumerate(MILLIONS):
        yield f"case: {number}: a number of a million digits\nbytes a.dat: {EVEN}"
        yield f"bytes front: {escaped(front)}\nbytes end: {escaped(end)}"
        yield "run:\n    { cat front; head -c 1000000 /dev/zero | tr '\\0' 9; cat end; } > a.cert"
        yield "    qapcheck optimal a.dat a.cert"
        yield f"stderr: refused {refusal}\nstatus: 1"
    for n in range(2, 7):
        yield from full_tree(n)
    for version in 1, 2:
        yield from deep_tree(version)


def beginnings(number, instance, text, printed):
    """Each proper beginning of a text ends too early, in its last line, whatever else is wrong."""
    yield f"case: {number}: each proper beginning\nbytes a.dat: {instance}"
    yield "bytes a.cert: " + text.replace("\n", "\\n")
    yield "run:\n    qapcheck optimal a.dat a.cert"
    yield f"    for stop in $(seq 0 {len(text) - 1}); do head -c $stop a.cert > cut; qapcheck optimal a.dat cut; done"
    refusals = [f"refused 14 Truncated at {text[:stop].count(chr(10)) + 1}" for stop in range(len(text))]
    if printed.startswith("refused"):
        refusals.insert(0, printed)
    else:
        yield f"stdout: {printed}"
    yield "stderr:\n" + "\n".join(f"    {refusal}" for refusal in refusals) + "\nstatus: 1"


def mixed(n, step):
    """n * n numbers from 0 to 6, with no order in them."""
    state, numbers = step, []
    for _ in range(n * n):
        state = (state * step + 11) % 101
        numbers.append(state % 7)
    return numbers


def full_lines(free, count):
    """The lines of a tree that splits down to each permutation; `count` numbers the splits, which are on free
    facilities in turn."""
    if not free:
        return ["b"]
    facility = free[next(count) % len(free)]
    rest = [f for f in free if f != facility]
    return [f"s {facility + 1}", *(line for _ in free for line in full_lines(rest, count))]


def full_tree(n):
    """A certificate that splits down to each permutation shows the least cost of all."""
    a, b = mixed(n, 37), mixed(n, 18)

    def cost(p):
        return sum(a[n * i + j] * b[n * p[i] + p[j]] for i in range(n) for j in range(n))

    best = min(itertools.permutations(range(n)), key=cost)
    head = ["qapcert 2", f"n {n}", f"cost {cost(best)}", "perm " + " ".join(str(k + 1) for k in best)]
    lines = [*head, *full_lines(list(range(n)), itertools.count()), "end"]
    yield f"case: a full tree of size {n}\nfile a.dat: {n} {' '.join(map(str, a + b))}"
    yield "file a.cert:\n" + "\n".join(f"    {line}" for line in lines)
    yield f"run: qapcheck optimal a.dat a.cert\nstdout: optimal {cost(best)}"


def deep_tree(version):
    """A certificate of size 40 whose first child of each split is a split; each permutation costs 0."""
    splits = ["s" if version == 1 else f"s {depth + 1}" for depth in range(40)]
    bounds = ["b" + " 0 0" * depth for depth in range(1, 40) for _ in range(depth)]
    perm = "perm " + " ".join(str(k + 1) for k in range(40))
    lines = [f"qapcert {version}", "n 40", "cost 0", perm, *splits, "b", *bounds, "end"]
    yield f"case: a deep tree in version {version}\nfile a.cert:\n" + "\n".join(f"    {line}" for line in lines)
    yield "run:\n    { echo 40; yes 0 | head -n 3200; } > a.dat; qapcheck optimal a.dat a.cert"
    yield "    sed '3s/0/1/' a.cert > other.cert; qapcheck optimal a.dat other.cert"
    yield "stdout: optimal 0\nstderr: refused 16 CostDiffers at 3\nstatus: 1"
