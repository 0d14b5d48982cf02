"""Each message of `qapplan show` and `check` about an answer and about its proof (docs/MESSAGES.md)."""

SHARED = """
file plan.toml:
    flows = 'f.csv'
    distances = 'd.csv'
file fixed.toml:
    flows = 'f.csv'
    distances = 'd.csv'
    [fixed]
    Saw = 'C'
file f.csv:
    ,Saw,Lathe
    Saw,0,2.5
    Lathe,0,0
file d.csv:
    ,A,B,C
    A,0,1.5,4
    B,2,0,3
    C,4,3,0
file two.dat: 2 0 3 1 0 0 5 2 0
file first.json: {"permutation":[1,2,3],"cost":"3.75","bound":"3.75","status":"optimal"}
file kept.json: {"permutation":[3,2,1],"cost":"7.5","bound":"7.5","status":"optimal"}
file two.json: {"permutation":[2,1],"cost":"11","bound":"10","status":"bounded"}
"""

NAMED = "name a file that `qapplan solve --json` wrote"
NO_JSON = f"the text is not JSON: {NAMED}"
NO_LIST = f'the key "permutation" must be a list of locations: {NAMED}'
LOCATION = 'the key "permutation[{0}]" must be a whole number from 1 to {1}: name an answer to this plan'
TEXT = 'the key "{0}" must be text in quotes: ' + NAMED
NAMES = 'the key "{0}" must be a list of {1} names: name an answer to this plan'
NAME = 'the key "{0}[{1}]" must be "{2}": name an answer to this plan'
COST = 'the key "cost" must be "{0}", which is what the arrangement costs: solve the plan again'
BOUND = 'the key "bound" must be a number that is no larger than the cost, "{0}": solve the plan again'
STATUS = 'the key "status" must be "{0}" according to the cost and the bound: solve the plan again'
FIXED = 'the key "permutation[{0}]" must be {1}, where the plan fixes that department: solve the plan again'
NO_NAMES = 'the key "{0}" is present, but an instance has no names: name the plan instead'

# A plan or an instance, the text of an answer, and what is said of it. The permutation 1 2 3 costs 3.75 in the plan.
ANSWERS = [
    ("plan.toml", "x", f"line 1, column 1: {NO_JSON}"),
    # Where the text ends early, the column is that of its last byte.
    ("plan.toml", '{"permutation":\\n  [1,2', f"line 2, column 6: {NO_JSON}"),
    ("plan.toml", "", f"line 1, column 0: {NO_JSON}"),
    ("plan.toml", "[]", NO_LIST),
    ("plan.toml", "{}", NO_LIST),
    ("plan.toml", '{"permutation":"123"}', NO_LIST),
    ("plan.toml", '{"permutation":[1,2]}',
     'the key "permutation" has 2 locations instead of 3: name an answer to this plan'),
    ("plan.toml", '{"permutation":[1,2,4]}', LOCATION.format(3, 3)),
    ("plan.toml", '{"permutation":[0,2,3]}', LOCATION.format(1, 3)),
    ("plan.toml", '{"permutation":[1,2.5,3]}', LOCATION.format(2, 3)),
    ("plan.toml", '{"permutation":[1,"2",3]}', LOCATION.format(2, 3)),
    ("plan.toml", '{"permutation":[1,2,2]}',
     'the key "permutation[3]": the location 2 occurs twice: give each facility a location of its own'),
    ("fixed.toml", '{"permutation":[1,2,3]}', FIXED.format(1, 3)),
    ("plan.toml", '{"permutation":[1,2,3]}', TEXT.format("cost")),
    ("plan.toml", '{"permutation":[1,2,3],"cost":3.75}', TEXT.format("cost")),
    ("plan.toml", '{"permutation":[1,2,3],"cost":"3.74"}', COST.format("3.75")),
    ("plan.toml", '{"permutation":[1,2,3],"cost":"375"}', COST.format("3.75")),
    ("plan.toml", '{"permutation":[1,2,3],"cost":"x"}', COST.format("3.75")),
    ("plan.toml", '{"permutation":[1,2,3],"cost":"3.75"}', TEXT.format("bound")),
    ("plan.toml", '{"permutation":[1,2,3],"cost":"3.75","bound":"3.76"}', BOUND.format("3.75")),
    ("plan.toml", '{"permutation":[1,2,3],"cost":"3.75","bound":"low"}', BOUND.format("3.75")),
    ("plan.toml", '{"permutation":[1,2,3],"cost":"3.75","bound":"3.75"}', TEXT.format("status")),
    ("plan.toml", '{"permutation":[1,2,3],"cost":"3.75","bound":"3.7","status":"optimal"}', STATUS.format("bounded")),
    ("plan.toml", '{"permutation":[1,2,3],"cost":"3.75","bound":"3.75","status":"bounded"}', STATUS.format("optimal")),
    ("plan.toml", '{"departments":["Saw","Drill"]}', NAME.format("departments", 2, "Lathe")),
    ("plan.toml", '{"departments":["Saw"]}', NAMES.format("departments", 2)),
    ("plan.toml", '{"places":["A","B"]}', NAMES.format("places", 3)),
    ("plan.toml", '{"places":["A","C","B"]}', NAME.format("places", 2, "B")),
    ("plan.toml", '{"permutation":[1,2,3],"cost":"3.75","bound":"3.75","status":"optimal","arrangement":["A","C"]}',
     NAME.format("arrangement", 2, "B")),
    ("two.dat", '{"permutation":[1,2,3]}',
     'the key "permutation" has 3 locations instead of 2: name an answer to this plan'),
    ("two.dat", '{"permutation":[2,1],"cost":"17"}', COST.format("11")),
    ("two.dat", '{"places":[]}', NO_NAMES.format("places")),
    ("two.dat", '{"departments":["a","b"],"permutation":[2,1],"cost":"11","bound":"11","status":"optimal"}',
     NO_NAMES.format("departments")),
    ("two.dat", '{"arrangement":["a","b"],"permutation":[2,1],"cost":"11","bound":"11","status":"optimal"}',
     NO_NAMES.format("arrangement")),
]

WITH_ANSWER = "name the one that `qapplan solve --proof` wrote with this answer"
REFUSED = "the proof is refused: {0}: " + WITH_ANSWER
OTHER_ROOT = f"the proof is not over all arrangements that keep what is fixed: {WITH_ANSWER}"
OTHER_COST = "the proof is of an arrangement that costs {0}: " + WITH_ANSWER

THREE = "qapproof 1|n 3|cost 375|perm 1 2 3"
TWO = "qapproof 1|n 2|cost 11|perm 2 1"

# A plan or an instance, its answer, the lines of a proof, and what is said of that.
PROOFS = [
    ("plan.toml", "first.json", f"{THREE}|b 376 0 0 0 0 0|end",
     REFUSED.format("line 5: the duals don't fit the reduced matrix")),
    ("plan.toml", "first.json", f"{THREE}|b 374 0 0 0 0 0|end",
     REFUSED.format("line 5: the duals bound their part by too little")),
    ("plan.toml", "first.json", f"{TWO}|b 6 2 3 0|end", REFUSED.format("line 2: the size is not the instance's")),
    ("plan.toml", "first.json", "qapcert 1", REFUSED.format("the first line is not that of a proof")),
    ("plan.toml", "first.json", "qapproof 3", REFUSED.format("the proof's version is not known")),
    ("plan.toml", "first.json", f"{THREE}|x", REFUSED.format("line 5 is not spelled as it should be")),
    ("plan.toml", "first.json", "", REFUSED.format("the text ends in line 1")),
    ("plan.toml", "first.json", f"{THREE}|b 375 0 0 0 0 0|end|x", REFUSED.format("line 7 follows the last line")),
    ("plan.toml", "first.json", "qapproof 1|n 3|cost 376|perm 1 2 3|b 375 0 0 0 0 0|end",
     REFUSED.format("line 3: the permutation has another cost")),
    ("plan.toml", "first.json", "qapproof 1|n 3|cost 375|perm 1 2 2|b 375 0 0 0 0 0|end",
     REFUSED.format("line 4: the numbers are no permutation")),
    ("two.dat", "two.json", f"{TWO}|s 1|s 2|s 1|b|b 11 0|end", REFUSED.format("line 7 splits where nothing is free")),
    ("two.dat", "two.json", f"{TWO}|s 1|s 1|b|b 11 0|end",
     REFUSED.format("line 6 splits on a facility that is not free")),
    ("two.dat", "two.json", f"{TWO}|t 1|t 1|b|b 11 0|end",
     REFUSED.format("line 6 splits on a location that is not free")),
    ("plan.toml", "first.json", f"{THREE}|b 375 0 0 0 0|end", REFUSED.format("line 5 has another number of duals")),
    ("plan.toml", "first.json", f"{THREE}|b 375 0 0 0 0 1000000000000000000000001|end",
     REFUSED.format("line 5 has a dual outside -10^24 to 10^24")),
    ("two.dat", "two.json", f"{TWO}|s 1|c|b 11 0|end", REFUSED.format("line 6 cuts a child where there are no duals")),
    ("two.dat", "two.json", f"{TWO}|s 1|m 1 2 1|b 11 0|end", REFUSED.format("line 6 is the image of no earlier child")),
    ("two.dat", "two.json", f"{TWO}|node 2 1 1 2|b|end", REFUSED.format("line 5 is no root")),
    ("two.dat", "two.json", "qapproof 1|n 2|cost 17|perm 1 2|t 1 6 2 3 0|c|c|end",
     REFUSED.format("line 7: the duals bound the child by too little")),
    ("two.dat", "two.json", f"{TWO}|s 1|b 17 0|m 1 2 1|end",
     REFUSED.format("line 7: the permutation takes no earlier child to this one")),
    ("plan.toml", "first.json", "qapproof 1|n 3|cost 500|perm 2 1 3|bound 375|b 375 0 0 0 0 0|end",
     OTHER_COST.format("5")),
    ("two.dat", "two.json", "qapproof 1|n 2|cost 17|perm 1 2|bound 11|b 6 2 3 0|end", OTHER_COST.format("17")),
    ("fixed.toml", "kept.json", f"{THREE}|b 375 0 0 0 0 0|end", OTHER_ROOT),
    ("plan.toml", "first.json", f"{THREE}|node 1 1|b 375 0 0 0|end", OTHER_ROOT),
    ("two.dat", "two.json", f"{TWO}|node 1 2|b 11 0|end", OTHER_ROOT),
]

NOUGHTS = "p 1|0 0|0 0|0 0|0 0"

# The same of proofs with pair duals, which are all 0 (docs/PAIR_PROOFS.md). The cost step of the plan is 25 * 5, and
# that of two.dat 1. With the saw at place C, the lathe costs 1000 or 750; with the saw at A, it costs 375 or 1000.
PAIR_PROOFS = [
    ("two.dat", "two.json", f"qapproof 2|n 2|cost 11|perm 2 1|{NOUGHTS}|s 1 .. 0 0",
     REFUSED.format("the text ends in line 11")),
    ("two.dat", "two.json", f"qapproof 2|n 2|cost 11|perm 2 1|{NOUGHTS}|x 0 0|end",
     REFUSED.format("line 10: the duals bound their part by too little")),
    ("two.dat", "two.json", f"qapproof 2|n 2|cost 17|perm 1 2|{NOUGHTS}|s 1 .. 0 0|end",
     REFUSED.format("line 10: the duals bound the child by too little")),
    ("two.dat", "two.json", f"qapproof 2|n 2|cost 17|perm 1 2|bound 11|{NOUGHTS}|s 1 .. 0 0|end",
     OTHER_COST.format("17")),
    ("fixed.toml", "kept.json", f"qapproof 2|n 3|cost 1000|perm 3 1 2|node 1 3|bound 750|{NOUGHTS}|x 750 0|end",
     OTHER_COST.format("10")),
    ("fixed.toml", "kept.json", f"qapproof 2|n 3|cost 375|perm 1 2 3|node 1 1|{NOUGHTS}|x 375 0|end", OTHER_ROOT),
    ("plan.toml", "first.json", f"qapproof 2|n 3|cost 375|perm 1 2 3|node 1 1|{NOUGHTS}|x 375 0|end", OTHER_ROOT),
    ("two.dat", "two.json", "qapproof 2|n 2|cost 11|perm 2 1|node 1 2|p 1||x 11|end", OTHER_ROOT),
]

UNOPENED = "a file couldn't be opened, read or written"

# The last word names what is no file, or is a folder.
UNREADABLE = ["show plan.toml none", "show two.dat none", "show two.dat .", "check plan.toml none", "check two.dat .",
              "check plan.toml first.json none", "check two.dat two.json ."]


def cases():
    yield SHARED
    for number, (source, text, message) in enumerate(ANSWERS):
        for command in ("show", "check") if number < 4 else ("show",):
            yield f"case: {command} {number}: {message}\nbytes a.json: {text}"
            yield f"run: qapplan {command} {source} a.json\nstderr: error: a.json: {message}\nstatus: 1"
    for number, (source, answer, lines, message) in enumerate(PROOFS):
        text = lines.replace("|", "\\n") + ("\\n" if lines else "")
        yield f"case: proof {number}: {message}\nbytes a.proof: {text}"
        yield f"run: qapplan check {source} {answer} a.proof\nstderr: error: a.proof: {message}\nstatus: 1"
    for number, (source, answer, lines, message) in enumerate(PAIR_PROOFS):
        text = lines.replace("|", "\\n") + "\\n"
        yield f"case: proof with pair duals {number}: {message}\nbytes a.proof: {text}"
        yield f"run: qapplan check {source} {answer} a.proof\nstderr: error: a.proof: {message}\nstatus: 1"
    for words in UNREADABLE:
        yield f"case: {words}\nrun: qapplan {words}\nstderr: error: {words.split()[-1]}: {UNOPENED}\nstatus: 1"
