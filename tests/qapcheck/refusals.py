"""Each refusal of `qapcheck`, with its place or line (docs/FORMATS.md, "Refusals")."""

TWO = "2 0 3 1 0 0 2 5 0"
THREE = "3 0 1 2 1 0 3 2 3 0 0 5 2 5 0 1 2 1 0"
EVEN = "3 0 1 0 0 0 1 1 0 0 0 1 0 1 0 0 0 0 0"

# An instance with what follows it on the same input, and the refusal of `qapcheck value`. A place counts bytes before
# the word, in a
# solution from the end of the instance's last number.
VALUES = [
    ("", "1 Empty"),
    (", ,", "1 Empty"),
    ("1 2 3", "1 Empty"),
    ("1 2 3 ,\n", "1 Empty"),
    ("2 0 x", "2 NotANumber at 4"),
    ("2 0 3.5 1 0 0 2 5 0", "2 NotANumber at 4"),
    ("\\xff\\x00", "2 NotANumber at 0"),
    ("- 1", "2 NotANumber at 0"),
    ("-", "2 NotANumber at 0"),
    ("x", "2 NotANumber at 0"),
    (" + 1 2", "2 NotANumber at 1"),
    ("1 2- 3", "2 NotANumber at 2"),
    ("1 5 -", "2 NotANumber at 4"),
    ("1 2 3 x", "2 NotANumber at 1"),
    ("0", "3 SizeZero at 0"),
    (" -1 x", "3 SizeZero at 1"),
    ("\n-1", "3 SizeZero at 1"),
    ("-99999999999999999999999999999999999999999999", "3 SizeZero at 0"),
    ("257", "4 SizeTooLarge at 0"),
    ("1000000000000000000000000000000", "4 SizeTooLarge at 0"),
    ("340282366920938463463374607431768211457", "4 SizeTooLarge at 0"),
    ("1 1000000001 7", "5 EntryRange at 2"),
    ("1 7 -1000000001", "5 EntryRange at 4"),
    ("1 7 -1700000000", "5 EntryRange at 4"),
    ("1 7 -18446744073709551617", "5 EntryRange at 4"),
    ("2 0 3", "6 CountDiffers"),
    ("1 5 ", "6 CountDiffers"),
    ("1 2 3 1", "6 CountDiffers"),
    ("1 2 3 1 7", "6 CountDiffers"),
    (f"{TWO}\n3 11 1 2 3", "8 SizeDiffers at 1"),
    (f"{TWO}\n2 11 1 1", "9 NotPermutation at 8"),
    (f"{TWO}\n2 11 0 1", "9 NotPermutation at 6"),
    (f"{TWO}\n2 11 3 1", "9 NotPermutation at 6"),
    ("1 2 3 1 -1000000000000000000000001 1", "10 ValueRange at 3"),
    ("1 2 3 1 1000000000000000000000001 1", "10 ValueRange at 3"),
    # The words are judged in order, each for all its faults.
    ("257 x", "4 SizeTooLarge at 0"),
    ("2 0 x 1000000001", "2 NotANumber at 4"),
    ("2 0 1000000001 x", "5 EntryRange at 4"),
]

# A solution of two facilities in a file of its own, and the refusal.
SOLUTIONS = [
    (" ", "1 Empty"),
    ("two", "2 NotANumber at 0"),
    ("2 7.5 1 2", "2 NotANumber at 2"),
    ("2", "6 CountDiffers"),
    ("2 7", "6 CountDiffers"),
    ("2 7 1", "6 CountDiffers"),
    (" 3 7 1 2", "8 SizeDiffers at 1"),
    ("2 7 0 2", "9 NotPermutation at 4"),
    ("2 7 3 2", "9 NotPermutation at 4"),
    ("2 7 1 1", "9 NotPermutation at 6"),
    ("2 7 1 65538", "9 NotPermutation at 6"),
    ("2 1000000000000000000000001 1 2", "10 ValueRange at 2"),
]

# An instance, the lines of a certificate, and the refusal of `qapcheck optimal`.
CERTIFICATES = [
    ("2 0 x", "qapcert 1", "2 NotANumber at 4"),
    (TWO, "qapcert 1|n 3|cost 24|perm 1 2 3|b 9 10 12 0 -2 -5|end", "8 SizeDiffers at 2"),
    (THREE, "cert 1", "11 BadHeader"),
    (THREE, "qapcert 0", "11 BadHeader"),
    (THREE, "qapcert", "11 BadHeader"),
    (THREE, "qapcert 01", "11 BadHeader"),
    (THREE, "qapproof 1", "11 BadHeader"),
    (THREE, "qapcert 3", "12 BadVersion"),
    (THREE, "qapcert 1|n 257", "13 BadLine at 2"),
    (THREE, "qapcert 1|n 0", "13 BadLine at 2"),
    (THREE, "qapcert 1|n 3|cost 24 ", "13 BadLine at 3"),
    (THREE, "qapcert 1|n 3|cost 1000000000000000000000001", "13 BadLine at 3"),
    (THREE, "qapcert 1|n 3|cost 24|perm 1 2", "13 BadLine at 4"),
    (THREE, "qapcert 1|n 3|cost 24|perm 1 2 3|b 09 10 12 0 -2 -5|end", "13 BadLine at 5"),
    (THREE, "qapcert 1|n 3|cost 24|perm 1 2 3|b 9 10 12 -0 -2 -5|end", "13 BadLine at 5"),
    (THREE, "qapcert 1|n 3|cost 24|perm 1 2 3|b  9 10 12 0 -2 -5|end", "13 BadLine at 5"),
    (THREE, "qapcert 1|n 3|cost 24|perm 1 2 3|bound 20|b 9 10 12 0 -2 -5|end", "13 BadLine at 5"),
    (THREE, "qapcert 1|n 3|cost 24|perm 1 2 3|s 1", "13 BadLine at 5"),
    (THREE, "qapcert 2|n 3|cost 24|perm 1 2 3|s", "13 BadLine at 5"),
    (THREE, "qapcert 2|n 3|cost 24|perm 1 2 3|s 4", "13 BadLine at 5"),
    (EVEN, "qapcert 2|n 3|cost 1|perm 1 2 3|s 0", "13 BadLine at 5"),
    (EVEN, "qapcert 2|n 3|cost 1|perm 1 2 3|s 01", "13 BadLine at 5"),
    (EVEN, "qapcert 2|n 3|cost 1|perm 1 2 3|s 1 2", "13 BadLine at 5"),
    (EVEN, "qapcert 2|n 3|cost 1|perm 1 2 3|s 3|s 1|s 2|s 4", "13 BadLine at 8"),
    (EVEN, "qapcert 2|n 3|cost 1|perm 1 2 3|bound 2|b 0 0 0 0 0 0|end", "13 BadLine at 5"),
    (EVEN, "qapcert 2|n 3|cost 1|perm 1 2 3|bound 0 0|b 0 0 0 0 0 0|end", "13 BadLine at 5"),
    (EVEN, "qapcert 2|n 3|cost 1|perm 1 2 3|bound 0|bound 0|b 0 0 0 0 0 0|end", "13 BadLine at 6"),
    (TWO, "qapcert 1|n 2|cost 11|perm 1 2|s|s|b|end", "13 BadLine at 8"),
    (EVEN, "qapcert 2|n 3|cost 1|perm 1 2 3|bound 1|b 0 0 0 0 0 0|end", "13 BadLine at 5"),
    (EVEN, "qapcert 2|n 3|cost 1|perm 1 2 3|bound -1000000000000000000000001|b 0 0 0 0 0 0|end", "13 BadLine at 5"),
    (THREE, "", "14 Truncated at 1"),
    (THREE, "qapcert 1|n 3|cost 24|perm 1 2 3|b 9 10 12 0 -\\", "14 Truncated at 5"),
    (THREE, "qapcert 1|n 3|cost 24|perm 1 2 3|b 9 10 12 0 -2 -5|end\\", "14 Truncated at 6"),
    (THREE, "qapcert 1|n 3|cost 24|perm 1 2 3|b 9 10 13 0 -2 -5", "14 Truncated at 6"),
    (THREE, "qapcert 1|n 3|cost 24|perm 1 2 3|b 9 10 12 0 -2 -5|end|x", "15 TrailingText at 7"),
    (EVEN, "qapcert 2|n 3|cost 1|perm 1 2 3|bound 0|b 0 0 0 0 0 0|end|x", "15 TrailingText at 8"),
    # A fault of the text comes before every fault of what it says.
    (THREE, "qapcert 1|n 3|cost 23|perm 1 2 3|b 9 10 12 0 -2 -5|end|x", "15 TrailingText at 7"),
    (THREE, "qapcert 1|n 3|cost 23|perm 1 2 3|b 9 10 12 0 -2 -5|end", "16 CostDiffers at 3"),
    (TWO, "qapcert 1|n 2|cost 12|perm 1 2|s|s|b|s|b|end", "16 CostDiffers at 3"),
    (THREE, "qapcert 1|n 3|cost 24|perm 1 2 2|b 9 10 12 0 -2 -5|end", "17 PermBad at 4"),
    (THREE, "qapcert 1|n 3|cost 24|perm 1 2 4|b 9 10 12 0 -2 -5|end", "17 PermBad at 4"),
    (TWO, "qapcert 1|n 3|cost 24|perm 1 2 2|b 9 10 12 0 -2 -5|end", "17 PermBad at 4"),
    (TWO, "qapcert 1|n 2|cost 11|perm 1 2|s|s|s|s|b|end", "18 SplitTooDeep at 7"),
    (EVEN, "qapcert 1|n 3|cost 1|perm 1 2 3" + 1000 * "|s", "18 SplitTooDeep at 8"),
    (EVEN, "qapcert 2|n 3|cost 1|perm 1 2 3|s 3|s 1|s 2|s 2", "18 SplitTooDeep at 8"),
    (THREE, "qapcert 1|n 3|cost 24|perm 1 2 3|b 9 10 12 0 -2|end", "19 DualCount at 5"),
    (THREE, "qapcert 1|n 3|cost 24|perm 1 2 3|b 9 10 12 0 -2 -5 0|end", "19 DualCount at 5"),
    (TWO, "qapcert 1|n 2|cost 11|perm 1 2|s|s|b 0|s|b|end", "19 DualCount at 7"),
    (EVEN, "qapcert 2|n 3|cost 1|perm 1 2 3|bound 0|b 0 0 0 0 0|end", "19 DualCount at 6"),
    (THREE, "qapcert 1|n 3|cost 24|perm 1 2 3|b 1000000000000000000000001 10 12 0 -2 -5|end", "20 DualRange at 5"),
    (THREE, "qapcert 1|n 3|cost 24|perm 1 2 3|b 9 10 12 0 -2 -1000000000000000000000001|end", "20 DualRange at 5"),
    # 13 - 5 = 8 is more than the entry of 7.
    (THREE, "qapcert 1|n 3|cost 24|perm 1 2 3|b 9 10 13 0 -2 -5|end", "21 NotFeasible at 5"),
    # The first facility costs 6 at the second location, and the duals are 6 and 3.
    ("2 0 3 1 0 0 5 2 0", "qapcert 1|n 2|cost 11|perm 2 1|b 6 2 0 3|end", "21 NotFeasible at 5"),
    ("2 0 3 1 0 0 5 2 0", "qapcert 2|n 2|cost 11|perm 2 1|b 6 2 0 3|end", "21 NotFeasible at 5"),
    (EVEN, "qapcert 2|n 3|cost 1|perm 1 2 3|s 2|b 0 0 1 0|b 0 0 1 0|b 1 0 0 0|end", "21 NotFeasible at 8"),
    # These fit, and their sum is 23.
    (THREE, "qapcert 1|n 3|cost 24|perm 1 2 3|b 9 10 11 0 -2 -5|end", "22 BoundTooLow at 5"),
    (EVEN, "qapcert 1|n 3|cost 1|perm 1 2 3|b 0 0 0 0 0 0|end", "22 BoundTooLow at 5"),
    (EVEN, "qapcert 2|n 3|cost 1|perm 1 2 3|bound 0|b 0 0 -1 0 0 0|end", "22 BoundTooLow at 6"),
    (TWO, "qapcert 1|n 2|cost 17|perm 2 1|s|s|b|s|b|end", "22 BoundTooLow at 7"),
    (EVEN, "qapcert 2|n 3|cost 1|perm 1 2 3|s 2|s 2|b 0 0 1 0|b 0 1 0 0|end", "25 FacilityTaken at 6"),
]


def certificate_text(lines):
    """The text of lines separated by `|`. It ends in a line feed, unless a backslash stands at the end."""
    text = lines.replace("|", "\n")
    return text[:-1] if text.endswith("\\") else f"{text}\n" if text else ""


def cases():
    for number, (text, refusal) in enumerate(VALUES):
        escaped = text.replace("\n", "\\n")
        yield f"case: value {number}: {refusal}\nbytes both: {escaped}\nrun: qapcheck value < both"
        yield f"stderr: refused {refusal}\nstatus: 1"
    for number, (text, refusal) in enumerate(SOLUTIONS):
        yield f"case: solution {number}: {refusal}\nfile a.dat: {TWO}\nfile a.sln: {text}"
        yield f"run: qapcheck value a.dat a.sln\nstderr: refused {refusal}\nstatus: 1"
    for number, (instance, lines, refusal) in enumerate(CERTIFICATES):
        escaped = certificate_text(lines).replace("\n", "\\n")
        yield f"case: optimal {number}: {refusal}\nfile a.dat: {instance}\nbytes a.cert: {escaped}"
        yield f"run: qapcheck optimal a.dat a.cert\nstderr: refused {refusal}\nstatus: 1"
    yield from beginnings()


def beginnings():
    """Each proper beginning of an instance and what follows it on one input is refused for its end."""
    yield from cut_short("value", TWO, "2 11 1 2", lambda rest: "6 CountDiffers" if rest.strip() else "1 Empty")
    certificate = "qapcert 2\nn 3\ncost 24\nperm 1 2 3\nb 9 10 12 0 -2 -5\nend\n"
    yield from cut_short("optimal", THREE, certificate, lambda rest: f"14 Truncated at {max(1, rest.count(chr(10)))}")


def cut_short(question, instance, other, refusal_of):
    """The same of an instance and a text behind it, whose own beginnings have these refusals. Each number that ends one
    of them has a single digit."""
    text = f"{instance}\n{other}"
    refusals = ["1 Empty"] + (len(instance) - 1) * ["6 CountDiffers"]
    refusals += [refusal_of(text[len(instance):stop]) for stop in range(len(instance), len(text))]
    yield f"case: {question}: each proper beginning of both texts on one input"
    yield "bytes both: " + text.replace("\n", "\\n")
    yield f"run: for stop in $(seq 0 {len(text) - 1}); do head -c $stop both | qapcheck {question}; done"
    yield "stderr:\n" + "\n".join(f"    refused {refusal}" for refusal in refusals) + "\nstatus: 1"
