"""Proofs with pair duals that are altered, and what `qapverify` says of each (docs/PAIR_PROOFS.md, docs/FORMATS.md)."""

# A line of examples/corridor.proof2, another one in its place, and the refusal. Lines 5 to 14 are the root's pair
# duals, line 15 its split on department 2, lines 16 and 17 the children that have a text.
ALTERED = [
    (1, "qapproof 3", "12 BadVersion"),
    (1, "qapprof 2", "11 BadHeader"),
    (2, "n 0", "13 BadLine at 2"),
    (2, "n 257", "13 BadLine at 2"),
    (3, "cost 024", "13 BadLine at 3"),
    (3, "cost 25", "16 CostDiffers at 3"),
    (4, "perm 1 2", "13 BadLine at 4"),
    (4, "perm 1 2 2", "17 PermBad at 4"),
    (4, "perm 1 2 3\\nbound 24", "13 BadLine at 5"),
    (4, "perm 1 2 3\\nnode 2 1 1 2", "53 RootBad at 5"),
    # A root has pair duals of its own, with a scale from 1 to 2^20.
    (5, "x 0 0 0", "13 BadLine at 5"),
    (5, "p 0", "13 BadLine at 5"),
    (5, "p 1048577", "13 BadLine at 5"),
    (6, "0 4 0", "19 DualCount at 6"),
    (6, "0 4  0 0", "13 BadLine at 6"),
    (6, " 0 4 0 0", "13 BadLine at 6"),
    (14, "0 0 0 1000000000000000000000001", "20 DualRange at 14"),
    # Departments 1 and 3 exchange 2 both ways: in adjacent rooms that costs 4.
    (6, "0 5 0 0", "21 NotFeasible at 5"),
    # Departments 3 and 2 exchange 3 both ways, which costs 6; room 2 is next to room 3.
    (14, "0 7 0 0", "21 NotFeasible at 5"),
    (14, "7 0 0 0", "21 NotFeasible at 5"),
    (15, "s 4 .++ 4 0 0", "13 BadLine at 15"),
    (15, "s 2 .+ 4 0 0", "13 BadLine at 15"),
    (15, "s 2 .x+ 4 0 0", "13 BadLine at 15"),
    (15, "s 2 .++ 4 0", "19 DualCount at 15"),
    # A line is left over, which a proof has not, whatever its bounds are.
    (15, "s 2 ..+ 4 0 0", "13 BadLine at 17"),
    (16, "x 10 6", "22 BoundTooLow at 16"),
    (16, "c", "13 BadLine at 16"),
    (16, "x 10", "19 DualCount at 16"),
    (16, "s 2 .. 10 6", "25 FacilityTaken at 16"),
    (16, "s 1 .x 10 6", "13 BadLine at 16"),
    (16, "t 2 .. 10 6", "26 LocationTaken at 16"),
    (17, "m 3 3 2 1", "29 NoEarlierChild at 17"),
    (17, "m 1 3 2", "13 BadLine at 17"),
    (17, "m 1 3 2 2", "17 PermBad at 17"),
    # This one keeps no distances; the next one takes room 1 to itself, and not to room 3.
    (17, "m 1 2 3 1", "52 NotAnImage at 17"),
    (17, "m 1 1 2 3", "52 NotAnImage at 17"),
    # The exchange of departments 1 and 2 keeps no flows.
    (17, "g 1 2 1 3 3 2 1", "52 NotAnImage at 17"),
    (17, "g 1 1 2 2 3 2 1", "17 PermBad at 17"),
    (18, "fin", "13 BadLine at 18"),
    (18, "end\\nx", "15 TrailingText at 19"),
]

# The same, with what is still shown. With 3 on line 15 in place of 4, z is 1 less, and 1 is left in the row of
# department 1.
RIGHT = [
    (4, "perm 1 2 3\\nbound 23", "gap 23 24"),
    (4, "perm 3 2 1", "optimal 24"),
    (15, "s 2 .++ 3 0 0", "optimal 24"),
    (6, "0 3 0 0", "optimal 24"),
    (9, "-7 -1 0 0", "optimal 24"),
    (16, "s 3 .. 10 6", "optimal 24"),
    (16, "t 1 .. 10 6", "optimal 24"),
    (17, "g 1 1 2 3 3 2 1", "optimal 24"),
]

LINES = 18


def cases():
    yield "use: examples/corridor.dat examples/corridor.proof2"
    for number, (line, text, refusal) in enumerate(ALTERED):
        yield f"case: {number}: {refusal}"
        yield f"run: sed '{line}s/.*/{text}/' corridor.proof2 > a.proof; qapverify corridor.dat a.proof"
        yield f"stderr: refused {refusal}\nstatus: 1"
    for number, (line, text, answer) in enumerate(RIGHT):
        yield f"case: right {number}: {answer}"
        yield f"run: sed '{line}s/.*/{text}/' corridor.proof2 > a.proof; qapverify corridor.dat a.proof"
        yield f"stdout: {answer}" + ("" if answer.startswith("optimal") else "\nstatus: 5")
    # In room 2, 4 + 10 + 6 = 20 isn't above 22.
    yield "case: a child without its text"
    yield "run: sed '15s/.*/s 2 ..+ 4 0 0/; 16d' corridor.proof2 > a.proof; qapverify corridor.dat a.proof"
    yield "stderr: refused 28 CutTooLow at 15\nstatus: 1"
    for line in range(LINES):
        yield f"case: the first {line} lines"
        yield f"run: head -n {line} corridor.proof2 > a.proof; qapverify corridor.dat a.proof"
        yield f"stderr: refused 14 Truncated at {line + 1}\nstatus: 1"
