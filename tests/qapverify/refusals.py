"""Each refusal of `qapverify`, with its place or line (docs/FORMATS.md, "Refusals")."""

TWO = "2 0 3 1 0 0 2 5 0"
# Three facilities of which each permutation costs 21: each one of the locations keeps the distances of the first
# instance, and each one of the facilities the flows of the second.
EVEN = "3 0 1 2 3 0 4 5 6 0 0 1 1 1 0 1 1 1 0"
LEVEL = "3 0 1 1 1 0 1 1 1 0 0 1 2 3 0 4 5 6 0"
THREE_HEAD = "qapproof 1|n 3|cost 21|perm 1 2 3"
HEAD = "qapproof 1|n 2|cost 11|perm 1 2"
COSTLIER = "qapproof 1|n 2|cost 17|perm 2 1"
LEAST = f"{HEAD}|b 6 2 0 3|end"
PAIRS = "qapproof 2|n 2|cost 12|perm 1 2|p 1"

# An instance, the lines of a proof, and the refusal. The permutation 1 2 costs 11 and the other one 17; the matrix of
# the root has the
# rows 6 15 and 2 5.
PROOFS = [
    ("", LEAST, "1 Empty"),
    ("2 0 x", LEAST, "2 NotANumber at 4"),
    ("0", LEAST, "3 SizeZero at 0"),
    ("257", LEAST, "4 SizeTooLarge at 0"),
    ("1 1000000001 7", LEAST, "5 EntryRange at 2"),
    ("2 0 3", LEAST, "6 CountDiffers"),
    ("1 5 7", LEAST, "8 SizeDiffers at 2"),
    (EVEN, LEAST, "8 SizeDiffers at 2"),
    (TWO, "qapcert 1", "11 BadHeader"),
    (TWO, "qapproof", "11 BadHeader"),
    (TWO, "qapproof 0", "11 BadHeader"),
    (TWO, "qapproof 3", "12 BadVersion"),
    (TWO, "qapproof 1|n 257", "13 BadLine at 2"),
    (TWO, "qapproof 1|n 0", "13 BadLine at 2"),
    (TWO, "qapproof 1|n 02", "13 BadLine at 2"),
    (TWO, "qapproof 1|n 2|cost x", "13 BadLine at 3"),
    (TWO, "qapproof 1|n 2|cost 1000000000000000000000001", "13 BadLine at 3"),
    (TWO, "qapproof 1|n 2|cost 11|perm 1", "13 BadLine at 4"),
    (TWO, f"{HEAD}|bound 11|b 6 2 0 3|end", "13 BadLine at 5"),
    (TWO, f"{HEAD}|node 1 1|bound 12", "13 BadLine at 6"),
    (TWO, f"{HEAD}|b 6 2 0 3|stop", "13 BadLine at 6"),
    (TWO, f"{HEAD}|bound -1000000000000000000000001|b 6 2 0 3|end", "13 BadLine at 5"),
    (TWO, f"{HEAD}|x", "13 BadLine at 5"),
    (TWO, f"{HEAD}|b 6 2  0 3|end", "13 BadLine at 5"),
    (TWO, f"{HEAD}|b 6 2 0 03|end", "13 BadLine at 5"),
    (TWO, f"{HEAD}|s|end", "13 BadLine at 5"),
    (TWO, f"{HEAD}|s 3|end", "13 BadLine at 5"),
    (TWO, f"{HEAD}|t 0|end", "13 BadLine at 5"),
    (TWO, f"{HEAD}|s 1|b 11 0|m 1 2|end", "13 BadLine at 7"),
    (TWO, f"{HEAD}|s 1|b 11 0|b 17 0|b|end", "13 BadLine at 8"),
    (TWO, "", "14 Truncated at 1"),
    (TWO, f"{HEAD}|b 6 2 0 3", "14 Truncated at 6"),
    (TWO, f"{HEAD}|b 6 2 0 3\\", "14 Truncated at 5"),
    # The last line is missing, and the cost is another one.
    (TWO, "qapproof 1|n 2|cost 12|perm 1 2|b 6 2 0 3", "14 Truncated at 6"),
    (TWO, f"{LEAST}|x", "15 TrailingText at 7"),
    (TWO, f"{LEAST}|x\\", "15 TrailingText at 7"),
    (TWO, "qapproof 1|n 2|cost 12|perm 1 2|b 6 2 0 3|end", "16 CostDiffers at 3"),
    (TWO, "qapproof 1|n 2|cost 11|perm 1 1|b 6 2 0 3|end", "17 PermBad at 4"),
    (TWO, f"{HEAD}|s 1|b 11 0|m 1 2 2|end", "17 PermBad at 7"),
    ("1 5 7", "qapproof 1|n 1|cost 35|perm 1|s 1|s 1|b|end", "18 SplitTooDeep at 6"),
    (TWO, f"{HEAD}|node 1 1 2 2|s 1", "18 SplitTooDeep at 6"),
    (TWO, f"{HEAD}|b 6 2 0|end", "19 DualCount at 5"),
    (TWO, f"{HEAD}|s 1 6 2 0|end", "19 DualCount at 5"),
    (TWO, f"{HEAD}|s 1 7 2 0 3|c|b 1", "19 DualCount at 7"),
    (TWO, f"{HEAD}|b 6 2 0 1000000000000000000000001|end", "20 DualRange at 5"),
    (TWO, f"{HEAD}|t 1 -1000000000000000000000001 2 0 3|c|c|end", "20 DualRange at 5"),
    (TWO, f"{HEAD}|b 7 2 0 3|end", "21 NotFeasible at 5"),
    (TWO, f"{HEAD}|t 2 6 3 0 3|c|b 11 0|end", "21 NotFeasible at 5"),
    (TWO, f"{HEAD}|s 1 7 2 0 3|c|c|end", "21 NotFeasible at 5"),
    (TWO, f"{HEAD}|b 6 2 0 2|end", "22 BoundTooLow at 5"),
    (TWO, f"{COSTLIER}|t 2 6 2 0 3|c|b 11 0|end", "22 BoundTooLow at 7"),
    (TWO, f"{HEAD}|s 1|s 1|b|b|end", "25 FacilityTaken at 6"),
    (TWO, f"{HEAD}|node 1 2|s 1", "25 FacilityTaken at 6"),
    (TWO, f"{HEAD}|t 1|t 1|b|b|end", "26 LocationTaken at 6"),
    (TWO, f"{HEAD}|node 1 2|t 2", "26 LocationTaken at 6"),
    (TWO, f"{HEAD}|s 1|c|b 17 0|end", "27 CutWithoutDuals at 6"),
    (TWO, f"{HEAD}|c|end", "27 CutWithoutDuals at 5"),
    (EVEN, f"{HEAD}|s 1|c|end", "27 CutWithoutDuals at 6"),
    (TWO, f"{COSTLIER}|t 2 6 2 0 3|c|c|end", "28 CutTooLow at 7"),
    (TWO, f"{HEAD}|s 1 6 2 0 2|c|c|end", "28 CutTooLow at 6"),
    (TWO, f"{HEAD}|t 1 6 2 0 2|b 11 0|c|end", "28 CutTooLow at 7"),
    (TWO, f"{HEAD}|s 1|m 1 2 1|b 17 0|end", "29 NoEarlierChild at 6"),
    (TWO, f"{HEAD}|m 1 2 1|end", "29 NoEarlierChild at 5"),
    (TWO, f"{HEAD}|s 1|b 11 0|m 2 2 1", "29 NoEarlierChild at 7"),
    # The exchange of the locations takes 2 to 5 and 5 to 2; the identity keeps the matrix, and takes location 1 to
    # itself.
    (TWO, f"{HEAD}|s 1|b 11 0|m 1 2 1|end", "52 NotAnImage at 7"),
    (TWO, f"{HEAD}|s 1|b 11 0|m 1 1 2|end", "52 NotAnImage at 7"),
    (TWO, f"{HEAD}|t 1|b 11 0|m 1 2 1|end", "52 NotAnImage at 7"),
    (EVEN, f"{THREE_HEAD}|s 1|b 8 13 0 0|m 1 1 3 2|m 1 3 2 1|end", "52 NotAnImage at 7"),
    (EVEN, f"{THREE_HEAD}|s 1|s 2|b 17 0|m 1 3 1 2|m 1 2 1 3|m 1 3 2 1|end", "52 NotAnImage at 8"),
    (LEVEL, f"{THREE_HEAD}|s 1|b 0 0 8 13|m 1 2 1 3|m 1 3 2 1|end", "52 NotAnImage at 7"),
    (TWO, f"{HEAD}|node 2 1 1 2|b|end", "53 RootBad at 5"),
    (TWO, f"{HEAD}|node 1 1 2 1|b|end", "53 RootBad at 5"),
    (TWO, f"{HEAD}|node|b|end", "53 RootBad at 5"),
    (TWO, f"{HEAD}|node 1", "53 RootBad at 5"),
    (TWO, f"{HEAD}|node 1 3", "53 RootBad at 5"),
    # Pair duals where one facility is free.
    ("2 0 4 1 0 0 2 7 0", "qapproof 2|n 2|cost 15|perm 1 2|node 1 3|p 1||x 15|end", "53 RootBad at 5"),
    ("2 0 4 1 0 0 2 7 0", "qapproof 2|n 2|cost 15|perm 1 2|node 1 1|p 1| |x 15|end", "13 BadLine at 7"),
    # A fault of the text comes before every fault of what it says.
    (TWO, f"{HEAD}|b 7 2 0 3|end|x", "15 TrailingText at 7"),
    (TWO, f"{PAIRS}|0 0|0 0|0 0|0 0|s 1 .. 0 0|end", "16 CostDiffers at 3"),
    (TWO, f"{PAIRS}|0 0|0 0|0 0|0 0|s 1 .. 0 0|end|x", "15 TrailingText at 12"),
    (TWO, f"{PAIRS}|4 8|0 0|0 0|0 0|s 1 .+ 0 0|x", "19 DualCount at 11"),
]


def proof_text(lines):
    """The text of lines separated by `|`. It ends in a line feed, unless a backslash stands at the end."""
    text = lines.replace("|", "\n")
    return text[:-1] if text.endswith("\\") else f"{text}\n" if text else ""


def cases():
    for number, (instance, lines, refusal) in enumerate(PROOFS):
        escaped = proof_text(lines).replace("\n", "\\n")
        yield f"case: {number}: {refusal}\nbytes a.dat: {instance}\nbytes a.proof: {escaped}"
        yield f"run: qapverify a.dat a.proof\nstderr: refused {refusal}\nstatus: 1"
