"""Cases of each instance in examples/. The optimum is that of the table in examples/README.md."""

import pathlib
import re

EXAMPLES = pathlib.Path(__file__).resolve().parent.parent / "examples"

LARGEST_BY_QAPPLAN = 16  # what it solves here; larger ones are stopped
LARGEST_BY_QAPSOLVE = 12
STOPPED_BY_QAPSOLVE = ["nug12", "rou12", "nug20", "nug30"]
TABLE = re.findall(r"^\| `(\w+)` \| (\d+) \| (\d+)", (EXAMPLES / "README.md").read_text(), re.MULTILINE)

# Changes a proof or a certificate, and prints how the checker refuses it: `CHECK FILE`.
REFUSED = """    for what in cost dual; do
        line=$(python3 alter.py {text} altered $what)
        {check} altered
        echo "$? $what in line $line" >&2
    done"""


def cases():
    names = [name for name, _, _ in TABLE]
    files = [path.stem for path in EXAMPLES.glob("*.dat")]
    assert names and sorted(names) == sorted(files), "the table of examples/README.md is not of all instances"
    for name, size, optimum in TABLE:
        yield value(name, optimum)
        if (EXAMPLES / f"{name}.cert").exists():
            yield shipped(name, optimum, "cert", f"qapcheck optimal {name}.dat")
        if (EXAMPLES / f"{name}.proof").exists():
            yield shipped(name, optimum, "proof", f"qapverify {name}.dat")
        if int(size) <= LARGEST_BY_QAPPLAN:
            for workers in (1, 4):
                yield planned(name, optimum, workers)
        else:
            yield planned_and_stopped(name, optimum)
        if int(size) <= LARGEST_BY_QAPSOLVE:
            yield solved(name, size, optimum)
            yield crowded(name, size, optimum)
        if name in STOPPED_BY_QAPSOLVE:
            yield stopped(name, optimum)


def value(name, optimum):
    return f"""
case: {name}: the published solution
use: examples/{name}.dat examples/{name}.sln
run: qapcheck value {name}.dat {name}.sln
stdout matches: cost {optimum}\\ninverse -?\\d+\\nstated {optimum}\\nmatch direct
"""


def refused_lines():
    """What is printed of a text whose cost and whose first dual are altered."""
    cost = r"refused 16 CostDiffers at 3\n1 cost in line 3"
    return rf"{cost}\nrefused 21 NotFeasible at (\d+)\n1 dual in line \1"


def shipped(name, optimum, kind, check):
    return f"""
case: {name}: its {kind}, accepted and refused
use: examples/{name}.dat examples/{name}.{kind} tests/alter.py
run:
    {check} {name}.{kind}
{REFUSED.format(text=f"{name}.{kind}", check=check)}
stdout: optimal {optimum}
stderr matches: {refused_lines()}
"""


def planned(name, optimum, workers):
    return f"""
case: {name}: qapplan with {workers} worker{"s" if workers > 1 else ""}, its proof accepted and refused
use: examples/{name}.dat tests/alter.py
run:
    qapplan solve {name}.dat --workers {workers} --proof a.proof --json a.json --out a.txt > printed || exit
    qapverify {name}.dat a.proof
    qapplan check {name}.dat a.json a.proof
{REFUSED.format(text="a.proof", check=f"qapverify {name}.dat")}
stdout:
    optimal {optimum}
    cost {optimum}, optimal, proved
stderr matches: {refused_lines()}
check:
    optimal {name}.dat {optimum} printed
    same printed a.txt
    json a.json {name}.dat {optimum}
limit: 300
"""


def planned_and_stopped(name, optimum):
    return f"""
case: {name}: qapplan, stopped
use: examples/{name}.dat
run:
    qapplan solve {name}.dat --nodes 200 --proof a.proof --json a.json > printed; echo $?
    qapverify {name}.dat a.proof > shown
    qapplan check {name}.dat a.json a.proof > checked; tail -n 1 printed | cmp - checked
    sed -n 's/^cost .*, within \\(.*\\) to \\(.*\\), proved$/gap \\1 \\2/p' printed | cmp - shown
stdout: 5
check:
    proved {name}.dat {optimum} printed
    json a.json {name}.dat {optimum} bounded
limit: 300
"""


def solved(name, size, optimum):
    return f"""
case: {name}: qapsolve, its certificate accepted and refused
use: examples/{name}.dat tests/alter.py
run:
    qapsolve solve < {name}.dat > printed || exit
    qapsolve solve --cert < {name}.dat > a.cert || exit
    qapcheck optimal {name}.dat a.cert
{REFUSED.format(text="a.cert", check=f"qapcheck optimal {name}.dat")}
stdout: optimal {optimum}
stderr matches: {refused_lines()}
check: optimal {name}.dat {optimum} printed
limit: 300
"""


def crowded(name, size, optimum):
    return f"""
case: {name}: qapsolve, 64 workers whose leases end after a millisecond
slow:
use: examples/{name}.dat
run: qapsolve solve --workers 64 --lease 1 < {name}.dat
ignore: stdout
check: optimal {name}.dat {optimum}
limit: 1800
"""


def stopped(name, optimum):
    return f"""
case: {name}: qapsolve, stopped
use: examples/{name}.dat
run:
    qapsolve solve --nodes 1000 --workers 1 < {name}.dat > printed; echo $?
    qapsolve solve --nodes 1000 --workers 1 --cert < {name}.dat > a.cert; echo $?
    qapcheck optimal {name}.dat a.cert > shown; head -n 1 printed | cmp - shown
    qapsolve solve --nodes 1000 --workers 4 < {name}.dat > of_four; echo $?
stdout:
    5
    5
    5
check:
    proved {name}.dat {optimum} printed
    proved {name}.dat {optimum} of_four
limit: 300
"""
