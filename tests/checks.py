"""Checks of answers that cannot be known in advance. A case names one by `check:`, with the words that its function
takes after the run. A check fails by raising an error. Everything is computed here, and nothing by the programs
under test."""

import csv
import itertools
import json as json_text
import math
import re
import xml.etree.ElementTree as ElementTree
from fractions import Fraction

KEPT = " among arrangements that keep what is fixed"


def expect(condition, message):
    if not condition:
        raise AssertionError(message)


# Instances and their permutations, which count from 0 here.


def instance_of(text):
    """The size and the two matrices of an instance's text."""
    words = [int(word) for word in re.split(r"[\s,]+", text.strip())]
    n = words[0]
    rows = [words[1 + n * i:1 + n * (i + 1)] for i in range(2 * n)]
    return n, rows[:n], rows[n:]


def cost_of(instance, permutation):
    n, a, b = instance
    return sum(a[i][j] * b[permutation[i]][permutation[j]] for i in range(n) for j in range(n))


def least_of(instance):
    """The least cost of all permutations: for sizes up to 8."""
    return min(cost_of(instance, permutation) for permutation in itertools.permutations(range(instance[0])))


def permutation_of(words, n):
    permutation = [int(word) - 1 for word in words]
    expect(sorted(permutation) == list(range(n)), f"{words} is no permutation of 1 to {n}")
    return permutation


def stated_by(text, instance):
    """What an answer of `qapsolve` or `qapplan` to an instance states: (permutation, cost, bound)."""
    n = instance[0]
    lines = text.splitlines()
    if lines[0].startswith("facility"):
        for number, line in enumerate(lines[:n], 1):
            expect(line.startswith(f"facility {number} at location "), f"line {number} is {line}")
        expect(len(lines) == n + 1, f"{len(lines)} lines")
        return (permutation_of([line.split()[-1] for line in lines[:n]], n), *verdict_of(lines[n], "", False))
    bound = None
    if lines[0].startswith("gap"):
        bound, stated = map(int, lines.pop(0).split()[1:])
    size, cost = map(int, lines[0].split())
    expect(size == n and len(lines) == 2, f"the solution is {lines}")
    expect(bound is None or stated == cost, f"the gap ends at {bound}")
    return permutation_of(lines[1].split(), n), cost, cost if bound is None else bound


def verdict_of(line, kept, in_percent):
    """The cost and the bound that a line of the cost states. How far they lie apart in percent is checked, too."""
    found = re.fullmatch(rf"cost (-?[\d.]+), optimal{kept}, proved", line)
    if found:
        return Fraction(found[1]), Fraction(found[1])
    percent = r"(, at most ([\d.]+)% above the least)?"
    found = re.fullmatch(rf"cost (-?[\d.]+), within (-?[\d.]+) to (-?[\d.]+){kept}, proved{percent}", line)
    expect(found and found[1] == found[3], f"the line of the cost is {line}")
    cost, bound = Fraction(found[1]), Fraction(found[2])
    if in_percent and bound > 0:
        tenths = math.ceil((cost - bound) * 1000 / bound)
        expect(found[5] and Fraction(found[5]) * 10 == tenths, f"{tenths} tenths of a percent are due: {line}")
    else:
        expect(not found[4], f"a percentage in {line}")
    return cost, bound


def judge(permutation_cost, cost, bound, optimum):
    """Judges a stated cost and a bound, by the permutation's own cost and the optimum."""
    expect(cost == permutation_cost, f"the cost is stated as {cost}, and is {permutation_cost}")
    expect(bound <= optimum <= cost, f"the optimum, {optimum}, is not within {bound} to {cost}")


def proved(run, instance, optimum=None, name="stdout"):
    """The answer states its permutation's cost and a bound, with the optimum between them. An optimum that is not
    given is found by trying all permutations."""
    instance = instance_of(run.text(instance))
    permutation, cost, bound = stated_by(run.text(name), instance)
    optimum = least_of(instance) if optimum in (None, "least") else int(optimum)
    judge(cost_of(instance, permutation), cost, bound, optimum)


def optimal(run, instance, optimum, name="stdout"):
    """The same, and the answer states that it is optimal."""
    proved(run, instance, optimum, name)
    _, cost, bound = stated_by(run.text(name), instance_of(run.text(instance)))
    expect(bound == cost, f"the answer is within {bound} to {cost}")


def least(run, instance, name="stdout"):
    """The answer is optimal, by trying all permutations."""
    optimal(run, instance, least_of(instance_of(run.text(instance))), name)


def shown(run, instance, name="stdout"):
    """The verdict of `qapcheck optimal` or `qapverify` is that the least cost of all permutations is optimal."""
    expected = f"optimal {least_of(instance_of(run.text(instance)))}\n"
    expect(run.text(name) == expected, f"the verdict is {run.text(name)}, where {expected} is due")


def least_is(run, instance, cost):
    """The least cost of all permutations is this."""
    found = least_of(instance_of(run.text(instance)))
    expect(found == int(cost), f"the least cost is {found}")


# Plans, and their answers in their own units.


class Plan:
    """A plan's names, flows and distances, worked out from its files: `flow[D, E]` and `distance[P, Q]`."""

    def __init__(self, run, name):
        self.folder = (run.folder / name).parent
        keys = plan_keys(run.text(name))
        self.fixed = keys.get("fixed", {})
        if "flows" in keys:
            self.departments, self.flow = matrix_of(self.rows(keys["flows"]))
        else:
            trips = self.rows(keys["trips"])[1:]
            seen = [name for row in trips for name in row[:2]]
            self.departments = keys.get("departments") or list(dict.fromkeys(seen))
            self.flow = {(row[0], row[1]): Fraction(row[2]) for row in trips}
        if "distances" in keys:
            self.places, self.distance = matrix_of(self.rows(keys["distances"]))
        else:
            points = {row[0]: (Fraction(row[1]), Fraction(row[2])) for row in self.rows(keys["places"])[1:]}
            self.places = list(points)
            self.distance = {(p, q): distance_of(keys["metric"], keys.get("decimals", 2), points[p], points[q])
                             for p in points for q in points}

    def rows(self, name):
        with open(self.folder / name, encoding="utf-8-sig", newline="") as file:
            return [row for row in csv.reader(file) if row]

    def pair_costs(self, arrangement):
        """What each pair costs where the departments stand at these places, by rows."""
        return {(d, e): self.flow.get((d, e), 0) * self.distance[arrangement[d], arrangement[e]]
                for d in self.departments for e in self.departments}

    def cost(self, arrangement):
        return sum(self.pair_costs(arrangement).values())


def plan_keys(text):
    """The keys of a plan, whose values are numbers, texts in quotes, and lists of them on one line."""
    keys = table = {}
    for line in text.lstrip("\ufeff").splitlines():
        if line.strip() == "[fixed]":
            table = keys["fixed"] = {}
        elif line.strip() and not line.startswith("#"):
            key, value = line.split("=", 1)
            value = re.sub("^'([^']*)'", r'"\1"', value.strip())
            table[key.strip().strip("\"'")] = json_text.JSONDecoder().raw_decode(value)[0]
    return keys


def matrix_of(rows):
    names = rows[0][1:]
    return names, {(row[0], name): Fraction(cell) for row in rows[1:] for name, cell in zip(names, row[1:])}


def distance_of(metric, decimals, p, q):
    across, along = abs(p[0] - q[0]), abs(p[1] - q[1])
    if metric == "rectilinear":
        return across + along
    square = across * across + along * along
    if metric == "squared":
        return square
    scaled = 4 * square * 100 ** decimals  # The nearest whole number to r is (floor(2 r) + 1) / 2.
    return Fraction((math.isqrt(scaled.numerator // scaled.denominator) + 1) // 2, 10 ** decimals)


def arranged(lines, plan):
    """The arrangement that the first lines of an answer state; they are taken away."""
    arrangement = {}
    for department in plan.departments:
        line = lines.pop(0)
        expect(line.startswith(f"{department} at "), f"no place of {department}: {line}")
        arrangement[department] = line[len(department) + 4:]
    expect(len(set(arrangement.values())) == len(arrangement), "a place is taken twice")
    expect(set(arrangement.values()) <= set(plan.places), "a place is none of the plan's")
    for place in plan.places:
        if place not in arrangement.values():
            expect(lines.pop(0) == f"{place} stays empty", f"no line of {place}, which stays empty")
    for department, place in plan.fixed.items():
        expect(arrangement[department] == place, f"{department} was moved to {arrangement[department]}")
    return arrangement


def plan(run, name, optimum=None, answer="stdout"):
    """The answer to a plan places each department, states the arrangement's cost and a bound, with the optimum
    between them, and the five costliest pairs. An optimum that is not given is found by trying all arrangements."""
    plan = Plan(run, name)
    lines = run.text(answer).splitlines()
    arrangement = arranged(lines, plan)
    cost, bound = verdict_of(lines.pop(0), KEPT if plan.fixed else "", True)
    judge(plan.cost(arrangement), cost, bound, plan_least(plan) if optimum in (None, "least") else Fraction(optimum))
    pairs = [pair for pair in plan.pair_costs(arrangement).items() if pair[1] > 0]
    pairs = sorted(pairs, key=lambda pair: -pair[1])[:5]
    expected = ["dearest pairs:"] if pairs else []
    expected += [f"{d} to {e}: {decimal(pair_cost)}" for (d, e), pair_cost in pairs]
    expect(lines == expected, f"the last lines are {lines}, where {expected} are due")


def plan_least(plan):
    """The least cost of all arrangements that keep what is fixed: for up to a few thousand."""
    departments = [name for name in plan.departments if name not in plan.fixed]
    places = [name for name in plan.places if name not in plan.fixed.values()]
    free = (dict(zip(departments, chosen)) for chosen in itertools.permutations(places, len(departments)))
    return min(plan.cost({**plan.fixed, **arrangement}) for arrangement in free)


def plan_least_found(run, name, answer="stdout"):
    """The answer's arrangement has the least cost, whatever the answer says of it."""
    plan = Plan(run, name)
    cost, optimum = plan.cost(arranged(run.text(answer).splitlines(), plan)), plan_least(plan)
    expect(cost == optimum, f"the arrangement costs {cost}, and the least is {optimum}")


def decimal(number):
    """A fraction over a power of ten as a decimal number."""
    digits = f"{abs(number).numerator * 10 ** 30 // abs(number).denominator:031d}"
    text = f"{digits[:-30]}.{digits[-30:]}".rstrip("0").rstrip(".")
    return f"-{text}" if number < 0 else text


# Files beside an answer.


def json(run, name, source, optimum, status="optimal"):
    """The JSON of an answer has each key of docs/PLANNING.md, and a cost and a bound that are right."""
    answer = json_text.loads(run.text(name))
    keys = {"status", "cost", "bound", "permutation", "nodes", "open", "milliseconds", "version"}
    if source.lower().endswith(".toml"):
        keys |= {"departments", "places", "arrangement", "flow_scale", "distance_scale"}
        plan = Plan(run, source)
        if "gap" in answer:  # programs shipped before lack these
            keys |= {"gap", "pairs"} | ({"fixed"} if plan.fixed else set())
            expect(answer.get("fixed", {}) == plan.fixed, f"what is fixed is {answer.get('fixed')}")
            due = gap_of(Fraction(answer["cost"]), Fraction(answer["bound"]))
            expect(answer["gap"] == due, f"the gap is {answer['gap']}")
            expect_pairs(plan, answer)
        expect(answer["departments"] == plan.departments, "other departments than the table has")
        expect(answer["places"] == plan.places, "other places than the table has")
        permutation = permutation_of(answer["permutation"], len(plan.places))
        places = [plan.places[k] for k in permutation[:len(plan.departments)]]
        expect(answer["arrangement"] == places, "the arrangement is not that of the permutation")
        cost = plan.cost(dict(zip(plan.departments, places)))
        fixed = {department: places[plan.departments.index(department)] for department in plan.fixed}
        expect(fixed == plan.fixed, "a fixed department was moved")
    else:
        instance = instance_of(run.text(source))
        cost = cost_of(instance, permutation_of(answer["permutation"], instance[0]))
    expect(set(answer) == keys, f"the keys are {sorted(answer)}")
    judge(cost, Fraction(answer["cost"]), Fraction(answer["bound"]), Fraction(optimum))
    expect(answer["cost"] == decimal(cost), f"the cost is spelled {answer['cost']}")
    due = "optimal" if answer["bound"] == answer["cost"] else "bounded"
    expect(answer["status"] == status == due, f"the status is {answer['status']}")
    expect(re.fullmatch(r"\d+\.\d+\.\d+", answer["version"]), f"the version is {answer['version']}")
    counts = [answer[key] for key in ("nodes", "open", "milliseconds")]
    expect(all(type(count) is int and count >= 0 for count in counts), f"the counts are {counts}")


def gap_of(cost, bound):
    """(C - G) / G in percent, rounded up to tenths; None where G is not above 0."""
    if bound <= 0:
        return None
    return decimal(Fraction(-(-(cost - bound) * 1000 // bound), 10))


def expect_pairs(plan, answer):
    """The pairs are the five that cost most, the costliest first, each with what it costs."""
    places = dict(zip(answer["departments"], answer["arrangement"]))
    costs = plan.pair_costs(places)
    dear = sorted((cost for cost in costs.values() if cost > 0), reverse=True)[:5]
    told = [(pair["from"], pair["to"], Fraction(pair["cost"])) for pair in answer["pairs"]]
    expect([cost for _, _, cost in told] == dear, f"the pairs cost {told}")
    expect(all(costs[i, j] == cost for i, j, cost in told), f"the pairs are {told}")


SVG = "{http://www.w3.org/2000/svg}"


def boxes_of(svg):
    """The department and the place of each box of a picture; their names may be broken into lines."""
    boxes = []
    for mark in svg:
        if mark.tag == f"{SVG}rect" and mark.get("rx"):
            boxes.append(["", ""])
        elif mark.tag == f"{SVG}text" and mark.get("text-anchor"):
            boxes[-1][0 if mark.get("font-weight") == "bold" else 1] += mark.text
    return [tuple(box) for box in boxes]


def caption_of(svg):
    """The title of a picture, and what it says about the cost."""
    lines = [mark for mark in svg.iter(f"{SVG}text") if not mark.get("text-anchor") and not len(mark)]
    bold = [mark.get("font-weight") == "bold" for mark in lines]
    return ["".join(mark.text for mark, is_bold in zip(lines, bold) if is_bold == title) for title in (True, False)]


def drawn(svg, plan, answer):
    """A picture has each department at its place, and the other places are empty."""
    taken = dict(zip(answer["arrangement"], plan.departments))
    expect(sorted(boxes_of(svg)) == sorted((taken.get(place, ""), place) for place in plan.places), f"the boxes are {boxes_of(svg)}")


def words_of(answer):
    """The beginning of what is said about the cost of an answer: that it is optimal or a bound, or as stated."""
    if answer["status"] == "optimal":
        return f"cost {answer['cost']}, (optimal|stated as optimal)"
    return f"cost {answer['cost']}, (stated )?within {answer['bound']} to {answer['cost']}"


def picture(run, name, source, answer, *title):
    """A picture is well-formed, has the title, says what is known about the cost, and has each department at its place,
    by the JSON of an answer."""
    answer, title = json_text.loads(run.text(answer)), " ".join(title)
    svg = ElementTree.fromstring(run.text(name))
    expect(svg.tag == f"{SVG}svg", f"the root is {svg.tag}")
    found, verdict = caption_of(svg)
    expect(found == title, f"the title is {found}")
    expect(re.match(words_of(answer), verdict), f"it says {verdict}")
    drawn(svg, Plan(run, source), answer)


def arrows(run, name, answer):
    """A picture's arrows are as wide as the costliest pairs of an answer cost, the costliest first."""
    pairs = json_text.loads(run.text(answer))["pairs"]
    svg = ElementTree.fromstring(run.text(name))
    marked = [group for group in svg.iter(f"{SVG}g") if group.get("marker-end")]
    widths = [Fraction(path.get("stroke-width")) for path in marked[0]]
    costs = [Fraction(pair["cost"]) for pair in pairs]
    wanted = [max(5, min(90, cost * 90 // costs[0])) / Fraction(10) for cost in costs]
    expect(widths[:len(wanted)] == wanted and widths == sorted(widths, reverse=True), f"the widths are {widths}")


def report(run, name, source, answer, *title):
    """A report is well-formed; it has the title, what is proved, the picture, the place of each department, the
    costliest pairs and the commands that check it."""
    answer, title, plan = json_text.loads(run.text(answer)), " ".join(title), Plan(run, source)
    page = ElementTree.fromstring(run.text(name))
    titles = [page.find("head/title").text, page.find("body/h1").text]
    expect(titles == [title, title], f"the titles are {titles}")
    verdict = page.find("body/p[@class='verdict']").text.strip()
    expect(re.match(words_of(answer) + ".*proved", verdict), f"it says {verdict}")
    drawn(page.find(f"body/figure/{SVG}svg"), plan, answer)
    rows = [[[cell.text for cell in row.findall("td")] for row in table.findall("tr")[1:]] for table in page.findall("body/table")]
    empty = [place for place in plan.places if place not in answer["arrangement"]]
    wanted = [*map(list, zip(plan.departments, answer["arrangement"])), *(["stays empty", place] for place in empty)]
    expect(rows[0] == wanted, f"the places are {rows[0]}")
    pairs = [[pair["from"], pair["to"], pair["cost"]] for pair in answer["pairs"]]
    expect(rows[1][:len(pairs)] == pairs, f"the pairs are {rows[1]}")
    commands = page.findall("body/pre")[-1].text
    words = [" ".join(line.split()[:2]) for line in commands.splitlines()]
    expect(words[:2] == ["qapplan solve", "qapplan check"] and len(words) <= 3, f"the commands are {commands}")
    for block in page.findall("body/pre")[:-1]:
        expect(len(block.text.splitlines()) > 1, f"the comparison is {block.text}")


def solution(run, name, instance, optimum):
    """The file has the text of a solution whose cost is its permutation's, and at least the optimum."""
    instance = instance_of(run.text(instance))
    permutation, cost, _ = stated_by(run.text(name), instance)
    judge(cost_of(instance, permutation), cost, int(optimum), int(optimum))


def same(run, name, other):
    """Two texts are the same."""
    expect(run.text(name) == run.text(other), f"{name} is not {other}")


def short_leaves(run, name, parts):
    """The lines `short V node ..` of `qapverify` name the nodes of a list of parts, all of them and no other one. A
    node is a set of placements: their order does not matter here."""
    def nodes(texts):
        numbers = [text.split() for text in texts]
        return sorted(sorted(zip(map(int, words[::2]), map(int, words[1::2]))) for words in numbers)
    lines = [re.fullmatch(r"short -?\d+ node((?: \d+ \d+)*)", line) for line in run.text(name).splitlines()]
    expect(all(lines), f"{name} has another line")
    found, listed = nodes([line[1] for line in lines]), nodes(run.text(parts).splitlines())
    expect(found == listed, f"the nodes {found} are short, where {listed} are listed")


def larger(run, name, *costs):
    """In an instance of size 4 whose last facility stays at the last location, the arrangements in order cost this much."""
    instance = instance_of(run.text(name))
    found = [cost_of(instance, (*front, 3)) for front in itertools.permutations(range(3))]
    expect(found == [int(cost) for cost in costs], f"the arrangements cost {found}")
