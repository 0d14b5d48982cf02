"""Scripts of `qapsolve script`, line by line, each with its reply (docs/SPACE.md, "Scripts"); all worked by hand."""

LOW, HIGH = "-170141183460469231731687303715884105728", "170141183460469231731687303715884105727"
LONGEST = "abcdefghijklmnopqrstuvwxyz_01234"

# A name, and lines with their replies; a line without words has none.
SCRIPTS = [
    ("each command, and how its words are spelled", [
        ("  out -\t5  job_1 -007 [1,-2,-0] []\t\r", "ok"),
        ("rdp - ?w ?i ?l ?l", "got job_1 -7 [1,-2,0] []"),
        ("inp - job_1 -7 [1,-2,0] []", "got job_1 -7 [1,-2,0] []"),
        ("out 18446744073709551615 forever x", "refused 31"),
        (f"out - 007 {LOW} {HIGH}", "ok"),
        ("rdp - ?i ?i", f"got {LOW} {HIGH}"),
        ("rdp - ?i", "none"),
        ("out - forever job 5 x [] 3 [4]", "ok"),
        ("begin 10", "txn 1"),
        ("inp 1 job ?i ?w ?l 3 [4]", "got job 5 x [] 3 [4]"),
        ("renew 1 86400001", "ok"),
        ("abort 1", "ok"),
        ("inp - job 5 x [] 3 [5]", "none"),
        ("begin 000000000000000000000000000000000000000000009", "txn 2"),
        ("commit 2", "ok"),
        ("commit 3", "refused 31"),
        ("renew 3 1", "refused 31"),
        ("advance 4611686018427387905", "refused 33"),
        ("advance 18446744073709551615", "refused 33"),
        ("rdp - a b c d e f g h", "none"),
        (f"out - forever {LONGEST}", "ok"),
        (f"rdp - {LONGEST}", f"got {LONGEST}"),
    ]),
    ("lines without words", [
        ("", None),
        (" ", None),
        ("\t \t", None),
        ("\r", None),
        (" \r", None),
        ("begin 1", "txn 1"),
    ]),
    ("leases end, and lists are told apart", [
        ("out - 0 job 5", "ok"),
        ("rdp - job ?i", "none"),
        ("advance 7", "ok"),
        ("advance 3", "ok"),
        ("out - 5 job 6", "ok"),
        ("advance 11", "ok"),
        ("rdp - job ?i", "got job 6"),
        ("advance 12", "ok"),
        ("rdp - job ?i", "none"),
        ("out - forever -007 a_1", "ok"),
        ("rdp - ?i ?w", "got -7 a_1"),
        ("rdp - ?i ?i", "none"),
        ("out - forever node [1]", "ok"),
        ("out - forever node []", "ok"),
        ("out - forever node [1,2]", "ok"),
        ("inp - node [1,2]", "got node [1,2]"),
        ("inp - node [1,2]", "none"),
        ("inp - node []", "got node []"),
        ("inp - node ?l", "got node [1]"),
        ("rdp - node ?l", "none"),
    ]),
    ("a held tuple stays for its holder", [
        ("out - 5 job 1", "ok"),
        ("begin 20", "txn 1"),
        ("inp 1 job ?i", "got job 1"),
        ("advance 6", "ok"),
        ("abort 1", "ok"),
        ("rdp - job ?i", "none"),
        ("out 1 forever job 2", "refused 31"),
        ("begin 0", "txn 2"),
        ("rdp 2 job ?i", "refused 31"),
        ("begin 10", "txn 3"),
        ("renew 3 20", "ok"),
        ("advance 20", "ok"),
        ("out 3 0 job 3", "ok"),
        ("inp 3 job ?i", "got job 3"),
        ("commit 3", "ok"),
        ("commit 3", "refused 31"),
        ("renew 9 1", "refused 31"),
    ]),
    ("a write with a lease of 0 is found by its own transaction until the commit", [
        ("begin 50", "txn 1"),
        ("out 1 0 job 4", "ok"),
        ("rdp 1 job ?i", "got job 4"),
        ("commit 1", "ok"),
        ("rdp - job ?i", "none"),
    ]),
    ("a write that its own transaction takes never enters the space", [
        ("out - forever job 1", "ok"),
        ("begin 50", "txn 1"),
        ("out 1 forever job 2", "ok"),
        ("inp 1 job 1", "got job 1"),
        ("inp 1 job ?i", "got job 2"),
        ("inp 1 job ?i", "none"),
        ("commit 1", "ok"),
        ("rdp - job ?i", "none"),
        ("abort 1", "refused 31"),
    ]),
    ("the longest lines", [
        ("begin 1" + " " * 65529, "txn 1"),
        ("begin 1" + " " * 65530, "refused 36"),
        (" " * 65536, None),
        (" " * 65537, "refused 36"),
        ("begin 1" + " " * 200000, "refused 36"),
        ("begin " + "0" * 65529 + "1", "txn 2"),
        ("begin 1" + " " * 65528 + "\r", "txn 3"),
        ("begin 1" + " " * 65529 + "\r", "refused 36"),
        ("out - 5 [1" + ",1" * 1023 + "]", "ok"),
        ("out - 5 [1" + ",1" * 1024 + "]", "refused 36"),
    ]),
    # Numbers of 60,000 digits, which a line has room for, and of a million, which it hasn't.
    ("long numbers", [
        ("advance " + "0" * 60000 + "5", "ok"),
        ("advance " + "9" * 60000, "refused 36"),
        ("advance " + "0" * 1000000 + "5", "refused 36"),
        ("commit " + "9" * 60000, "refused 36"),
        ("out - forever " + "9" * 60000, "refused 36"),
        ("out - forever [" + "9" * 60000 + "]", "refused 36"),
        ("out - forever -" + "0" * 60000 + "7", "ok"),
        ("inp - " + "0" * 60000 + "7", "none"),
        ("inp - -" + "0" * 60000 + "7", "got -7"),
    ]),
]

NO_COMMANDS = [
    "job 1", "out", "out -", "out - forever", "out - 5", "out - never a", "out + forever a", "out - -5 a", "out - +5 a",
    "out - 18446744073709551616 a", "out 18446744073709551616 5 a", "out - forever ?i", "out - forever A",
    "out - forever a-b", "out - forever _a", f"out - forever {LONGEST}5", "out - forever a b c d e f g h i",
    "out - forever +5", "out - forever -", "out - forever --5", "out - forever 5-", "out - forever 0x5",
    "out - forever 170141183460469231731687303715884105728", "out - forever -170141183460469231731687303715884105729",
    "out - forever [", "out - forever ]", "out - forever [1,]", "out - forever [,1]", "out - forever [1,,2]",
    "out - forever [1 ,2]", "out - forever [a]", "out - forever [[1]]", "inp -", "rdp - ?x", "rdp - ?", "begin",
    "begin 1 2", "renew 1", "commit -", "advance\r 1", "begin 1\r\r", "begin 1 begin 1", "# no command",
]

# Whole texts, and the replies: how they are cut into lines.
TEXTS = [
    ("", []),
    ("\n", []),
    ("\r\n \t \r\n\n", []),
    ("begin 1", ["txn 1"]),
    ("begin 1\r", ["txn 1"]),
    ("\n\nbegin 1\r\n\nbegin 1", ["txn 1", "txn 2"]),
    ("\tbegin\t \t1 \n", ["txn 1"]),
    ("begin\n1\n", ["refused 36", "refused 36"]),
]


def table():
    """Hundreds of commands by a formula, beside a plain table."""
    counts = dict.fromkeys(range(17), 0)
    for i in range(600):
        number = (i * 7 + i // 5) % 17
        line = f"{['out - forever', 'rdp -', 'out - forever', 'inp -'][i % 4]} job {number}"
        if i % 2 == 0:
            counts[number] += 1
            yield line, "ok"
        else:
            yield line, f"got job {number}" if counts[number] > 0 else "none"
            counts[number] -= i % 4 == 3 and counts[number] > 0


def transactions():
    """As many transactions as a script may well begin, each found again behind the others, and a lease that ends under
    them."""
    for number in range(1, 501):
        yield f"begin {10 if number % 2 else 1}", f"txn {number}"
        yield f"out {number} forever job {number}", "ok"
    yield "advance 1", "ok"
    for number in range(1, 501):
        yield f"commit {number}", "ok" if number % 2 else "refused 31"
        yield f"inp - job {number}", f"got job {number}" if number % 2 else "none"


def case(name, text, replies):
    escaped = text.replace("\\", "\\\\").replace("\n", "\\n").replace("\r", "\\r").replace("\t", "\\t")
    yield f"case: {name}\nbytes script: {escaped}\nrun: qapsolve script < script"
    yield "stdout:\n" + "\n".join(f"    {reply}" for reply in replies)


def cases():
    by_lines = [*SCRIPTS, ("lines that are no command", [(line, "refused 36") for line in NO_COMMANDS])]
    by_lines += [("many commands beside a plain table", list(table())), ("many transactions", list(transactions()))]
    for name, rows in by_lines:
        text = "".join(f"{line}\n" for line, _ in rows)
        yield from case(name, text, [reply for _, reply in rows if reply is not None])
    for number, (text, replies) in enumerate(TEXTS):
        yield from case(f"cut into lines {number}", text, replies)
    yield "case: a word that is not ASCII\nbytes script: out - 5 caf\\xc3\\xa9\nrun: qapsolve script < script"
    yield "stdout: refused 36"
