"""Cases of small instances and plans drawn at random: their least costs are found by trying all arrangements."""

import random

INSTANCES = 24
PLANS = 12
LARGEST = 6

# How entries are drawn; the instances use these ways alternately.
ENTRIES = [
    lambda draw: draw.randint(0, 9),
    lambda draw: draw.randint(-3, 3),
    lambda draw: draw.choice([0, 0, 0, 1]),
    lambda draw: draw.randint(-10 ** 9, 10 ** 9),
]
NAMES = ["Saw", "Lathe", "Paint", "Store", "R&D", "Größe"]
PLACES = ["A", "B 2", "<C>", "D", "E"]


def cases():
    for seed in range(INSTANCES):
        yield instance_case(seed)
    for seed in range(PLANS):
        yield plan_case(seed)


def instance_case(seed):
    draw = random.Random(seed)
    n = 1 + seed % LARGEST
    entry = ENTRIES[seed // LARGEST % len(ENTRIES)]
    # Every second instance has symmetric matrices.
    rows = matrix(draw, n, entry, seed % 2) + matrix(draw, n, entry, seed % 2)
    rows = "\n".join("    " + " ".join(map(str, row)) for row in rows)
    return f"""
case: instance {seed}, size {n}
file a.dat:
    {n}
{rows}
run:
    qapsolve solve --workers 1 < a.dat > one
    qapsolve solve --workers 8 --lease 1 < a.dat > eight
    qapsolve solve --cert < a.dat > a.cert; qapcheck optimal a.dat a.cert > certified
    qapsolve solve --nodes 1 < a.dat > stopped
    qapplan solve a.dat --workers 1 --improve 0 --proof one.proof > one.txt; qapverify a.dat one.proof > one.verified
    qapplan solve a.dat --workers 4 --proof four.proof --json a.json > four.txt
    qapverify a.dat four.proof > four.verified
    qapplan solve a.dat --nodes 1 --improve 0 > stopped.txt
    qapplan check a.dat a.json four.proof
stdout matches: cost -?\\d+, optimal, proved
check:
    least a.dat one
    least a.dat eight
    shown a.dat certified
    proved a.dat least stopped
    least a.dat one.txt
    shown a.dat one.verified
    least a.dat four.txt
    shown a.dat four.verified
    proved a.dat least stopped.txt
"""


def matrix(draw, n, entry, symmetric):
    rows = [[entry(draw) for _ in range(n)] for _ in range(n)]
    return [[rows[min(i, j)][max(i, j)] if symmetric else rows[i][j] for j in range(n)] for i in range(n)]


def plan_case(seed):
    draw = random.Random(seed)
    departments, places = draw.sample(NAMES, draw.randint(1, 4)), draw.sample(PLACES, 5 - seed % 2)
    files, keys = {}, []
    if seed % 3 == 0:
        keys += ['flows = "f.csv"']
        files["f.csv"] = table(draw, departments)
    else:
        keys += ['trips = "f.csv"'] + [f"departments = {departments}".replace("'", '"')]
        pairs = draw.sample([(d, e) for d in departments for e in departments], len(departments))
        files["f.csv"] = ["from,to,amount"] + [f"{d},{e},{number(draw)}" for d, e in pairs]
    if seed % 4 == 0:
        keys += ['distances = "d.csv"']
        files["d.csv"] = table(draw, places)
    else:
        keys += ['places = "d.csv"', 'metric = "' + ["rectilinear", "squared", "euclidean"][seed % 3] + '"']
        files["d.csv"] = ["name,x,y"] + [f"{place},{x},{y}" for place, (x, y) in zip(places, points(draw, len(places)))]
    if seed % 2 == 0:
        keys += ['decimal_mark = "."']
    if seed % 5 == 1:
        keys += ["[fixed]", f'"{departments[0]}" = "{places[-1]}"']
    files["plan.toml"] = keys
    texts = "\n".join(f"file {name}:\n    " + "\n    ".join(lines) for name, lines in files.items())
    return f"""
case: plan {seed}
{texts}
run:
    qapplan solve plan.toml --json a.json --proof a.proof --svg a.svg || exit
    qapplan check plan.toml a.json a.proof >&2
    qapplan solve plan.toml --nodes 1 --improve 0 > stopped
ignore: stdout stderr status
check:
    plan plan.toml
    picture a.svg plan.toml a.json
    plan plan.toml least stopped
"""


def table(draw, names):
    return ["," + ",".join(names)] + [",".join([name] + [number(draw) for _ in names]) for name in names]


def points(draw, count):
    """This many points, no two of them the same."""
    found = {}
    while len(found) < count:
        x, y = number(draw), number(draw)
        found.setdefault((float(x), float(y)), (x, y))
    return found.values()


def number(draw):
    return draw.choice(["0", "1", "2.5", "-0.25", "12", "0.125", "7.0", "+3"])
