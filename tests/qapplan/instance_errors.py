"""Each message of `qapplan` about an instance in the QAPLIB format, and about a start (docs/MESSAGES.md)."""

TWO = "2 0 3 1 0 0 5 2 0"

# The text of an instance, and what is said of it. A place counts bytes from the file's first.
INSTANCES = [
    ("", "the text has no word"),
    (", ,", "the text has no word"),
    ("2 0 x", "the word at 4 is no whole number"),
    ("2 0 3.5 1 0 0 2 5 0", "the word at 4 is no whole number"),
    ("0", "the size at 0 is not positive"),
    ("-3", "the size at 0 is not positive"),
    ("257", "the size at 0 is above 256"),
    ("1 1000000001 7", "the entry at 2 lies outside -10^9 to 10^9"),
    ("2 0 3", "the text has too few numbers"),
    ("1 5 7 8", "something follows the instance, at 6; remove it, or pass over it with --ignore-rest"),
    ("2 0 3,5 1 0 0 5 2 0", "something follows the instance, at 18; remove it, or pass over it with --ignore-rest"),
]

# The text of a start for TWO, whose permutation 1 2 costs 17, and what is said of it.
STARTS = [
    ("", "the text has no word"),
    ("x", "the word at 0 is no whole number"),
    ("2 17", "the text has too few numbers"),
    ("3 0 1 2 3", "the size at 0 is not the instance's"),
    ("2 17 1 1", "the location at 7 is none of the size's, or stands twice"),
    ("2 17 3 1", "the location at 5 is none of the size's, or stands twice"),
    ("2 1000000000000000000000001 1 2", "the value at 2 lies outside -10^24 to 10^24"),
    ("2 11 1 2", "the arrangement costs 17, which is not what the file states"),
]

UNOPENED = "a file couldn't be opened, read or written"

# Each subcommand that reads an instance at FILE, with what else it needs.
COMMANDS = ["solve FILE", "split FILE --parts 2 -o parts", "part FILE --node '' --start a.sln -o a.proof",
            "show FILE a.json", "check FILE a.json"]
# Each that reads a start at FILE.
STARTED = ["solve two.dat --start FILE", "split two.dat --parts 2 -o parts --start FILE",
           "part two.dat --node '' --start FILE -o a.proof"]


def cases():
    yield f"file two.dat: {TWO}\nfile a.sln: 2 17 1 2\nfile a.json: {{}}"
    for number, (text, message) in enumerate(INSTANCES):
        commands = COMMANDS if number in (1, 9) else COMMANDS[:1]
        for command in commands:
            yield f"case: {command.split()[0]}: instance {number}: {message}\nbytes x.dat: {text}"
            yield f"run: qapplan {command.replace('FILE', 'x.dat')}"
            yield f"stderr: error: x.dat: {message}\nstatus: 1\nabsent: parts a.proof"
    for number, (text, message) in enumerate(STARTS):
        for command in STARTED if number in (0, 7) else STARTED[:1]:
            yield f"case: {command.split()[0]}: start {number}: {message}\nbytes x.sln: {text}"
            yield f"run: qapplan {command.replace('FILE', 'x.sln')}"
            yield f"stderr: error: x.sln: {message}\nstatus: 1\nabsent: parts a.proof"
    for command in COMMANDS + STARTED:
        yield f"case: {command}: no such file\nrun: qapplan {command.replace('FILE', 'none')}"
        yield f"stderr: error: none: {UNOPENED}\nstatus: 1"
        yield f"case: {command}: a folder\nrun: mkdir x; qapplan {command.replace('FILE', 'x')}"
        yield f"stderr: error: x: {UNOPENED}\nstatus: 1"
