"""Proofs of each form of line, worked by hand; and proofs that are cut short, or changed in one byte."""

EVEN = "3 0 1 2 3 0 4 5 6 0 0 1 1 1 0 1 1 1 0"
LEVEL = "3 0 1 1 1 0 1 1 1 0 0 1 2 3 0 4 5 6 0"
TWO = "2 0 3 1 0 0 2 5 0"

# A split on a location whose first child is closed, whose second one is the image of that, and whose third one is cut:
# all flows are equal, and each row of the reduced matrix of the whole is 3 7 11.
ALL_FORMS = "qapproof 1\nn 3\ncost 21\nperm 1 2 3\nt 1 0 0 0 3 7 11\nb 0 0 8 13\nm 1 2 1 3\nc\nend\n"

# A bound of all that completes a node, by a split on a facility whose one child is cut.
PART = "qapproof 1\nn 2\ncost 11\nperm 1 2\nnode 1 1\nbound 5\ns 2 11 0\nc\nend\n"

# A bound below the least cost, and a permutation that costs more, by a split on a location whose children are both cut.
GAP = "qapproof 1\nn 2\ncost 17\nperm 2 1\nbound 9\nt 2 6 2 0 3\nc\nc\nend\n"

# Pair duals, a split two of whose children have a text, and an image. It is examples/corridor.proof2.
CORRIDOR = "3 0 5 2 5 0 3 2 3 0 0 1 2 1 0 1 2 1 0"
PAIRS = "qapproof 2\nn 3\ncost 24\nperm 1 2 3\np 1\n" + 3 * "0 4 0 0\n" + 6 * "0 0 0 0\n"
PAIRS += "s 2 .++ 4 0 0\ns 1 .. 10 6\nm 1 3 2 1\nend\n"

# What stands in place of each byte, in a proof without pair duals and in one with them.
INSTEAD = "0123-9 \nbcmst"
INSTEAD_IN_PAIRS = "0129 -.+\nxpstmg"

# These proofs, each with its instance, what it shows, and what stands in place of each byte.
WHOLE = [
    (TWO, PART, "part 5", INSTEAD),
    (LEVEL, ALL_FORMS, "optimal 21", INSTEAD),
    (TWO, GAP, "gap 9 17", INSTEAD),
    (CORRIDOR, PAIRS, "optimal 24", INSTEAD_IN_PAIRS),
]

CHEAPER = "2 0 4 1 0 0 2 7 0"
PAIRS_HEAD = "qapproof 2|n 2|cost 15|perm 1 2"
TWO_HEAD = "qapproof 1|n 2|cost 11|perm 1 2"
THREE_HEAD = "qapproof 1|n 3|cost 21|perm 1 2 3"

# An instance, the lines of a proof, and what it shows. The permutations of two facilities cost 11 and 17; the matrix
# of the root has the rows 6 15 and 2 5. Those of three cost 21: of these, each permutation of the locations keeps the
# distances of the one instance, and each permutation of the facilities the flows of the other one.
RIGHT = [
    (TWO, f"{TWO_HEAD}|s 1 6 2 0 3|c|c|end", "optimal 11"),
    (TWO, f"{TWO_HEAD}|t 2 6 2 0 3|c|c|end", "optimal 11"),
    (TWO, f"{TWO_HEAD}|s 1|b 11 0|t 1|b|end", "optimal 11"),
    (TWO, f"{TWO_HEAD}|s 1 6 2 0 2|b 11 0|c|end", "optimal 11"),
    (TWO, f"{TWO_HEAD}|node 1 1|b 11 0|end", "part 11"),
    (TWO, f"{TWO_HEAD}|node 1 2|bound 5|b 5 0|end", "part 5"),
    (TWO, f"{TWO_HEAD}|node 1 1 2 2|b|end", "part 11"),
    (TWO, "qapproof 1|n 2|cost 17|perm 2 1|bound 11|s 1 6 2 0 3|c|c|end", "gap 11 17"),
    (EVEN, f"{THREE_HEAD}|s 1|b 8 13 0 0|m 1 2 1 3|m 2 1 3 2|end", "optimal 21"),
    (LEVEL, f"{THREE_HEAD}|t 1|b 0 0 8 13|m 1 2 1 3|m 1 3 2 1|end", "optimal 21"),
    (EVEN, f"{THREE_HEAD}|s 1|s 2|b 17 0|m 1 1 3 2|m 1 2 1 3|m 1 3 2 1|end", "optimal 21"),
    # Pair duals where one facility is free; these permutations cost 15 and 30.
    (CHEAPER, f"{PAIRS_HEAD}|node 1 1|p 1||x 15|end", "part 15"),
    (CHEAPER, f"{PAIRS_HEAD}|node 1 2|p 1||x 15|end", "part 15"),
]


def escaped(text):
    return text.replace("\n", "\\n")


def cases():
    for number, (instance, lines, verdict) in enumerate(RIGHT):
        proof = escaped(lines.replace("|", "\n"))
        yield f"case: right {number}: {verdict}\nbytes a.dat: {instance}\nbytes a.proof: {proof}\\n"
        yield f"run: qapverify a.dat a.proof\nstdout: {verdict}" + ("" if verdict.startswith("optimal") else "\nstatus: 5")
    for number, (instance, proof, verdict, _) in enumerate(WHOLE):
        yield f"case: {number}: each proper beginning\nbytes a.dat: {instance}\nbytes a.proof: {escaped(proof)}"
        yield "run:\n    qapverify a.dat a.proof"
        yield f"    for stop in $(seq 0 {len(proof) - 1}); do head -c $stop a.proof > cut; qapverify a.dat cut; done"
        lines = [proof[:stop].count("\n") + 1 for stop in range(len(proof))]
        yield f"stdout: {verdict}\nstderr:\n" + "\n".join(f"    refused 14 Truncated at {line}" for line in lines)
        yield "status: 1"
    for number, (instance, proof, _, others) in enumerate(WHOLE):
        yield f"case: {number}: each byte changed\nuse: tests/checks.py tests/each_byte.py"
        yield f"bytes a.dat: {instance}\nbytes a.proof: {escaped(proof)}"
        yield f"run: python3 each_byte.py a.dat a.proof '{escaped(others)}' qapverify a.dat a.proof"
        yield f"stdout: {len(others) * len(proof)} texts"
