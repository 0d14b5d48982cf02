"""Checks the documents: documents.py links FILE.. | length FILE.. | commands FILE.. | words FILE..

Prints a line for each link that names nothing, for each document, line and cell of a table that is too long, for each command
that does not exist, and if all documents together have too many words. The cases run it on the documents of the project; docs/reference/ and docs/SPEED.md, which scripts write, are also
checked to be current.
"""

import pathlib
import re
import shlex
import sys

ROOT = pathlib.Path(__file__).resolve().parent.parent
README_LINES = 120
LINES = 500
COLUMNS = 100  # Of a line that is neither of a table nor of a block of code.
CELL = 200  # Characters of a cell of a table.
WORDS = 40_000  # Of all documents together.
MADE = ROOT / "dist", ROOT / "docs" / "reference"  # Written by commands, and perhaps not yet.
FENCE = re.compile(r"^\s*```.*?^\s*```", re.M | re.S)
WRITTEN = re.compile(r"^<!-- [^\n]*written by [^\n]*-->$.*?^<!-- end -->$", re.M | re.S)  # A part that a script writes.
FREE = "docs/reference/", "docs/history/"  # Documents of any length.


def documents():
    """All documents of the project, by their paths from its folder."""
    found = [ROOT / name for name in ("docs", "examples", "tests", "bench")]
    paths = sorted(ROOT.glob("*.md")) + sorted(path for folder in found for path in folder.rglob("*.md"))
    return [str(path.relative_to(ROOT)) for path in paths]


def anchors(text):
    """The names of the sections of a document, as links give them."""
    titles = re.findall(r"^#+ (.+)$", FENCE.sub("", text), re.M)
    return {re.sub(r"[^\w\- ]", "", title.lower()).replace(" ", "-") for title in titles}


def links(name):
    """What is wrong with the links of a document."""
    text = FENCE.sub("", (ROOT / name).read_text())
    for target in re.findall(r"\]\(([^)\s]+)\)", text):
        if re.match(r"[a-z]+:", target):
            continue
        path, _, section = target.partition("#")
        file = ((ROOT / name).parent / path).resolve() if path else ROOT / name
        if any(folder in file.parents and not folder.exists() for folder in MADE):
            continue
        if not file.exists():
            yield f"{name}: {target}: no such file"
        elif section and section not in anchors(file.read_text()):
            yield f"{name}: {target}: no such section"


def length(name):
    """Whether a document, a line of it or a cell of a table is too long."""
    if name.startswith(FREE):
        return
    text = (ROOT / name).read_text()
    lines, most = len(text.splitlines()), README_LINES if name == "README.md" else LINES
    if lines > most:
        yield f"{name}: {lines} lines, where {most} are the most"
    for line in WRITTEN.sub("", FENCE.sub("", text)).splitlines():
        if line.startswith("|"):
            if any(len(cell.strip()) > CELL for cell in re.split(r"(?<!\\)\|", line)):
                yield f"{name}: a cell of more than {CELL} characters: {line}"
        elif len(line) > COLUMNS and not line.startswith("<!--"):
            yield f"{name}: a line of more than {COLUMNS} columns: {line}"


def words(*names):
    """Whether the documents that people write have too many words together."""
    written = [name for name in names if not name.startswith((*FREE, "docs/SPEED.md"))]
    count = sum(len((ROOT / name).read_text().split()) for name in written)
    if count > WORDS:
        yield f"{count} words, where {WORDS} are the most"


def commands(name):
    """Which commands that a document shows do not exist: those of its shell blocks, and those in its text that begin
    with bin/ or make."""
    text = (ROOT / name).read_text()
    shown = [line for block in re.findall(r"^```sh\n(.*?)^```", text, re.M | re.S) for line in block.splitlines()]
    shown += re.findall(r"`((?:bin/|make )[^`]+)`", FENCE.sub("", text))
    targets = re.findall(r"^(\w+):", (ROOT / "Makefile").read_text(), re.M)
    for line in shown:
        words = shlex.split(line, comments=True)
        if not words:
            continue
        if words[0] == "make":
            known = len(words) == 1 or words[1] in targets
        else:
            known = (ROOT / words[1 if words[0] in ("bash", "sh") else 0]).is_file()
        if not known:
            yield f"{name}: no command {line}"


def checker_cases():
    """The commands of docs/VERIFY.md, on three examples."""
    command = f"python3 -B {shlex.quote(str(ROOT / 'docs' / 'check.py'))}"
    for name, cost in (("chr12a.cert", 9552), ("nug12.proof", 578), ("workshop.proof", 360)):
        instance = name.split(".")[0] + ".dat"
        yield f"case: check.py on {name}\nuse: examples/{instance} examples/{name}"
        yield f"run: {command} {instance} {name}\nstdout: optimal {cost}"
        yield f"case: check.py on {name}, altered\nuse: examples/{instance} examples/{name}\nrun:"
        yield f"    sed '0,/^b [-0-9]*/s//b 999999/' {name} > altered\n    {command} {instance} altered"
        yield "stdout matches: refused: line \\d+: the duals do not fit\nstatus: 1"


def cases():
    command = f"python3 -B {shlex.quote(str(pathlib.Path(__file__).resolve()))}"
    names = " ".join(map(shlex.quote, documents()))
    yield f"case: links\nrun: {command} links {names}"
    yield f"case: length\nrun: {command} length {names}"
    yield f"case: words\nrun: {command} words {names}"
    yield f"case: commands of the README\nrun: {command} commands README.md"
    yield from checker_cases()
    if (ROOT / "docs" / "reference").exists():
        yield f"case: the reference is current\nrun: {shlex.quote(str(ROOT / 'bin' / 'reference'))} --check"
    yield f"case: the results are current\nrun: {shlex.quote(str(ROOT / 'bin' / 'speed'))} --check"


if __name__ == "__main__":
    kinds = {"links": links, "length": length, "commands": commands}
    faults = words(*sys.argv[2:]) if sys.argv[1] == "words" else (
        fault for name in sys.argv[2:] for fault in kinds[sys.argv[1]](name))
    for fault in faults:
        print(fault)
