"""Devices that pass a byte a call and fail: `qapcheck` and `qapsolve` are run once for each of their reads and writes,
with that one failing (each_call.py). An input takes a read for each byte and one that finds its end; a text is written
by a write for each byte. Lengths are counted here, and the answers are worked by hand.

And memory that is refused: `qapplan` is run once for each of its allocations, with that one refused (refuse_each.py)."""

import shutil

TWO = "2 0 3 1 0 0 2 5 0"

# A subcommand of `qapcheck`, its two texts, and its answer.
CHECKS = [
    ("value", "1 5 7 ", "1 35 1", "cost 35\ninverse 35\nstated 35\nmatch direct\n"),
    ("optimal", "1 -3 7 ", "qapcert 1\nn 1\ncost -21\nperm 1\nb -20 -1\nend\n", "optimal -21\n"),
    ("optimal", f"{TWO}\n", "qapcert 2\nn 2\ncost 11\nperm 1 2\ns 2\nb 11 0\nb 11 0\nend\n", "optimal 11\n"),
    ("optimal", "2 0 4 1 0 0 2 7 0,", "qapcert 2\nn 2\ncost 15\nperm 1 2\nbound 12\nb 8 2 0 2\nend\n", "gap 12 15\n"),
]

# Each permutation costs 1; the bound of the root is 0.
EVEN = "3 0 1 0 0 0 1 1 0 0 0 1 0 1 0 0 0 0 0"
TOO_LOW = f"{EVEN}\nqapcert 1\nn 3\ncost 1\nperm 1 2 3\nb 0 0 0 0 0 0\nend\n"
OPENING = "qapcert 2\nn 3\ncost 1\nperm 1 2 3\nbound 0\nb 0 0 0 0 0 0\nend\n"

# A subcommand of `qapsolve`, its input, its answer, and its status.
SOLVES = [
    ("solve --workers 1", EVEN, "3 1\n1 2 3\n", 0),
    ("solve --workers 1 --nodes 0", EVEN, "gap 0 1\n3 1\n1 2 3\n", 5),
    ("solve --workers 1 --nodes 0 --cert", EVEN, OPENING, 5),
    ("script", "out - 9 job 1\n\nbegin 5\nrdp 1 job ?i\ncommit 2", "ok\ntxn 1\ngot job 1\nrefused 31\n", 0),
]

# A command, its input, and its refusal; a folder can't be read.
REFUSALS = [
    ("qapcheck value", "2 0 3", "refused 6 CountDiffers\n"),
    ("qapcheck optimal", TOO_LOW, "refused 22 BoundTooLow at 5\n"),
    ("qapsolve solve", "2 0 3", "refused 6 CountDiffers\n"),
    ("qapsolve solve", None, "refused 51 Device\n"),
]


def escaped(text):
    return text.replace("\n", "\\n")


def indented(text):
    return "".join(f"    {line}\n" for line in text.splitlines())


def each_call(name, files, call, words, answer, count, status):
    """A case that makes each call fail."""
    yield f"case: {name}\nuse: tests/each_call.py tests/fail_io.c"
    yield from (f"bytes {file}: {escaped(text)}" for file, text in files.items())
    yield f"run: python3 each_call.py {call} {words}"
    yield f"stdout:\n{indented(answer)}    {count} calls\nstatus: {status}"


def checks():
    """Each of the two inputs of `qapcheck`, which are opened before either is read; both texts on one input; the
    output."""
    for number, (question, first, second, answer) in enumerate(CHECKS):
        files, both, words = {"a": first, "b": second}, {"input": first + second}, f"qapcheck {question}"
        name = f"qapcheck {question} {number}"
        yield from each_call(f"{name}: first input", files, "read 3", f"{words} a b", answer, len(first) + 1, 0)
        yield from each_call(f"{name}: second input", files, "read 4", f"{words} a b", answer, len(second) + 1, 0)
        yield from each_call(f"{name}: one input", both, "read 0", words, answer, len(first + second) + 1, 0)
        yield from each_call(f"{name}: output", files, "write 1", f"{words} a b", answer, len(answer), 0)


def solves():
    for words, text, answer, status in SOLVES:
        name, files = f"qapsolve {words}", {"input": text}
        yield from each_call(f"{name}: input", files, "read 0", name, answer, len(text) + 1, status)
        yield from each_call(f"{name}: output", files, "write 1", name, answer, len(answer), status)


def certificates():
    """Which certificate `qapsolve` writes is not known in advance: the one that is written where nothing fails shows
    that 1 is the least cost."""
    yield "case: qapsolve solve --cert\nuse: tests/each_call.py tests/fail_io.c"
    yield f"bytes input: {EVEN}\nrun:"
    yield "    for call in 'read 0' 'write 1'; do"
    yield "        python3 each_call.py $call qapsolve solve --workers 1 --cert > printed; tail -n 1 printed"
    yield "        head -n -1 printed > a.cert; qapcheck optimal input a.cert"
    yield "    done | sed \"s/^$(qapsolve solve --workers 1 --cert < input | wc -c) /all /\""
    yield f"stdout:\n    {len(EVEN) + 1} calls\n    optimal 1\n    all calls\n    optimal 1"


def refusals():
    for number, (words, text, line) in enumerate(REFUSALS):
        yield f"case: {words} {number}: refusal\nuse: tests/each_call.py tests/fail_io.c"
        yield f"run: {'mkdir input; ' if text is None else ''}python3 each_call.py write 2 {words}"
        yield f"stdout: {len(line)} calls\nstderr: {line.strip()}\nstatus: 1"
        if text is not None:
            yield f"bytes input: {escaped(text)}"


# The least of its 120 costs, by listing, is 13.
FIVE = "5 0 0 0 2 0 2 0 0 0 2 2 1 0 2 0 0 1 0 0 1 0 0 1 2 0 0 3 0 1 0 1 0 3 3 1 1 3 0 0 3 3 0 3 0 1 1 1 1 1 0"


def allocations():
    """A worker that finds no memory gives its node up: else the others wait ten minutes for its lease."""
    for workers in (1, 2, 8):
        yield f"case: qapplan solve --workers {workers}: each allocation refused"
        yield f"use: tests/refuse_each.py bin/refuse.c\nfile five.dat: {FIVE}"
        yield f"run: python3 refuse_each.py qapplan solve five.dat --workers {workers} --improve 10"
        yield "stdout: cost 13, optimal, proved; no run ended otherwise\nlimit: 300"


def cases():
    if shutil.which("cc") is None:
        print("failing_calls: left out: there is no C compiler, cc")
        return
    yield from checks()
    yield from solves()
    yield from certificates()
    yield from refusals()
    yield from allocations()
