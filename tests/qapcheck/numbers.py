"""Numbers of a million digits, signs or zeros in each place of an instance and of a solution."""

TWO = "2 0 3 1 0 0 2 5 0"

# The text before a million times a byte, the byte, the text after it, and the refusal of that instance.
INSTANCES = [
    ("", "9", " 0 3", "4 SizeTooLarge at 0"),
    ("-", "9", " 0 3", "3 SizeZero at 0"),
    ("", "0", " 0 3", "3 SizeZero at 0"),
    ("", "0", "2 0 x", "2 NotANumber at 1000004"),
    ("2 0 ", "9", " 1 0 0 2 5 0", "5 EntryRange at 4"),
    ("2 0 3 1 0 0 2 5 -", "9", "", "5 EntryRange at 16"),
    ("2 0 ", "9", "x", "2 NotANumber at 4"),
    ("2 0 ", "-", "3", "2 NotANumber at 4"),
    ("2 0 ", ",", "", "6 CountDiffers"),
]

# The same of a million nines in a solution.
SOLUTIONS = [
    ("", " 11 1 2", "8 SizeDiffers at 0"),
    ("2 ", " 1 2", "10 ValueRange at 2"),
    ("2 -", " 1 2", "10 ValueRange at 2"),
    ("2 11 1 ", "", "9 NotPermutation at 7"),
]

# What stands before a million zeros in an instance or a solution that is right, and what after them.
RIGHT_INSTANCES = [("", TWO), ("2 0 +", "3 1 0 0 2 5 0"), ("2 0 3 1 0 0 2 5 -", "")]
RIGHT_SOLUTIONS = [("+", "2 -11 1 2"), ("2 -", "11 1 2"), ("2 -11 1 ", "2")]


def case(name, front, byte, end, run):
    """A case whose file `long` has the byte a million times between its front and its end."""
    yield f"case: {name}\nfile two.dat: {TWO}\nfile two.sln: 2 -11 1 2\nbytes front: {front}\nbytes end: {end}\nrun:"
    yield f"    {{ cat front; head -c 1000000 /dev/zero | tr '\\0' '{byte}'; cat end; }} > long\n    {run}"


def cases():
    for number, (front, byte, end, refusal) in enumerate(INSTANCES):
        yield from case(f"instance {number}: {refusal}", front, byte, end, "qapcheck value long two.sln")
        yield f"stderr: refused {refusal}\nstatus: 1"
    for number, (front, end, refusal) in enumerate(SOLUTIONS):
        yield from case(f"solution {number}: {refusal}", front, "9", end, "qapcheck value two.dat long")
        yield f"stderr: refused {refusal}\nstatus: 1"
    right = [(row, "qapcheck value long two.sln") for row in RIGHT_INSTANCES]
    right += [(row, "qapcheck value two.dat long") for row in RIGHT_SOLUTIONS]
    for number, ((front, end), run) in enumerate(right):
        yield from case(f"zeros {number}", front, "0", end, run)
        yield "stdout:\n    cost 11\n    inverse 11\n    stated -11\n    match none\nstatus: 1"
