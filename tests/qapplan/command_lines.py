"""Command lines that `qapplan` refuses: status 2, nothing on standard output, and the first line on standard error."""

RANGE = "error: invalid value '{0}' for '{1}': {0} is not in {2}"
MISSING = "error: the following required arguments were not provided:"
NODES = "0..=4611686018427387904"

# The words after `qapplan`, and the first line that is printed, or its beginning.
LINES = [
    ("solve a.dat --workers 0", RANGE.format("0", "--workers <K>", "1..=64")),
    ("solve a.dat --workers 65", RANGE.format("65", "--workers <K>", "1..=64")),
    ("solve a.dat --workers many", "error: invalid value 'many' for '--workers <K>'"),
    ("solve a.dat --workers", "error: a value is required for '--workers <K>' but none was supplied"),
    ("solve a.dat --nodes -1", "error:"),
    ("solve a.dat --nodes 4611686018427387905", RANGE.format("4611686018427387905", "--nodes <N>", NODES)),
    ("solve a.dat --seconds 1.", "error: invalid value '1.' for '--seconds <S>': a time is expected, such as 90, 1.5, 2m or 1h"),
    ("solve a.dat --seconds 1,5", "error: invalid value '1,5' for '--seconds <S>'"),
    ("solve a.dat --seconds 1.2345", "error: invalid value '1.2345' for '--seconds <S>'"),
    ("solve a.dat --seconds 2d", "error: invalid value '2d' for '--seconds <S>'"),
    ("solve a.dat --seconds m", "error: invalid value 'm' for '--seconds <S>'"),
    ("solve a.dat --seconds ''", "error: invalid value '' for '--seconds <S>'"),
    ("solve a.dat --seconds 99999999999999999999", "error: invalid value '99999999999999999999' for '--seconds <S>'"),
    ("split a.dat --parts 2 -o parts --seconds .5", "error: invalid value '.5' for '--seconds <S>'"),
    ("part a.dat --node '' --start a.sln -o a.proof --seconds 1h30m", "error: invalid value '1h30m' for '--seconds <S>'"),
    ("solve a.dat --memory 1G", "error: invalid value '1G' for '--memory <MB>'"),
    ("solve a.dat --improve x", "error: invalid value 'x' for '--improve <ITERATIONS>'"),
    ("solve a.dat --seed x", "error: invalid value 'x' for '--seed <SEED>'"),
    ("solve a.dat --seed 18446744073709551616", "error: invalid value '18446744073709551616' for '--seed <SEED>'"),
    ("solve a.dat --quiet=yes", "error:"),
    ("solve a.dat b.dat", "error: unexpected argument 'b.dat' found"),
    ("solve a.dat --cert", "error: unexpected argument '--cert' found"),
    ("split a.dat --parts 1 -o parts", RANGE.format("1", "--parts <N>", "2..=1048576")),
    ("split a.dat --parts 1048577 -o parts", RANGE.format("1048577", "--parts <N>", "2..=1048576")),
    ("split a.dat --parts 2", MISSING),
    ("split a.dat -o parts", MISSING),
    ("split --parts 2 -o parts", MISSING),
    ("split a.dat --parts 2 -o parts --workers 2", "error: unexpected argument '--workers' found"),
    ("part a.dat --node '1 2' -o a.proof", MISSING),
    ("part a.dat --node '1 2' --start a.sln", MISSING),
    ("part a.dat --start a.sln -o a.proof", MISSING),
    ("part --node '' --start a.sln -o a.proof", MISSING),
    ("part a.dat --node '' --start a.sln -o a.proof --workers 65", RANGE.format("65", "--workers <K>", "1..=64")),
    ("part a.dat --node '' --start a.sln -o a.proof --improve 5", "error: unexpected argument '--improve' found"),
    ("convert plan.toml", MISSING),
    ("convert -o a.dat", MISSING),
    ("show plan.toml", MISSING),
    ("show", MISSING),
    ("check a.dat", MISSING),
    ("check a.dat a.json a.proof b.proof", "error: unexpected argument 'b.proof' found"),
    ("check a.dat a.json --svg a.svg", "error: unexpected argument '--svg' found"),
]


def cases():
    yield "use: examples/workshop.dat\nfile a.dat: 1 5 7"
    for words, line in LINES:
        shown = f'head -n 1 err | grep -qF "{line}" || cat err'
        yield f"case: {words}\nrun: qapplan {words} 2> err; echo $? >&2; {shown}\nstderr: 2"
