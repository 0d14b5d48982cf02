"""Exact solutions of quadratic assignment problems, with proofs.

>>> import konhrath
>>> answer = konhrath.solve([[0, 3], [3, 0]], [[0, 7], [7, 0]])
>>> answer.cost, answer.optimal
(42, True)

The programs `qapplan` and `qapverify` do the work, and their answers are proved: `bound` is never above the least cost.
"""
from __future__ import annotations

import dataclasses
import decimal
import json
import os
import pathlib
import subprocess
import tempfile
from typing import Mapping, Optional, Sequence, Union

__all__ = ["Answer", "KonhrathError", "solve", "verify"]

Number = Union[int, float, decimal.Decimal]
Matrix = Sequence[Sequence[Number]]


class KonhrathError(Exception):
    """A program refused its input; the text is its message."""


@dataclasses.dataclass(frozen=True)
class Answer:
    """What a search found."""

    permutation: list[int]
    """The location of each facility, counted from 0."""
    cost: Number
    """The cost of the permutation."""
    bound: Number
    """No permutation costs less (with fixed facilities: none that respects them)."""
    optimal: bool
    """Whether the bound equals the cost, so that the permutation is proved optimal."""
    seconds: float
    """The elapsed time."""
    proof: Optional[str] = None
    """The file of the proof, if one was requested."""


def solve(
    flow: Matrix,
    distance: Matrix,
    *,
    seconds: Optional[float] = None,
    fixed: Optional[Mapping[int, int]] = None,
    workers: Optional[int] = None,
    proof: Union[str, os.PathLike, None] = None,
) -> Answer:
    """Finds a permutation p that minimizes the sum of flow[i][j] * distance[p[i]][p[j]] over all i and j.

    `flow` and `distance` are square matrices of the same size, up to 256: nested sequences or NumPy arrays of whole or decimal numbers; a
    float stands for the shortest decimal number that it prints as. `fixed` maps facilities to locations, counted from 0. After `seconds`, or
    at Ctrl-C, the best permutation found so far is returned, with a bound. `workers` is the number of search threads, 4 by default. With
    `proof`, a proof is written to that file; `verify` checks it.
    """
    with tempfile.TemporaryDirectory(prefix="konhrath-") as room:
        problem = _write(pathlib.Path(room), flow, distance, fixed)
        shown = pathlib.Path(room, "answer.json")
        stop = pathlib.Path(room, "stop")
        command = [_program("qapplan"), "solve", problem, "--quiet", "--progress", "never"]
        command += ["--json", shown, "--stop-file", stop]
        if seconds is not None:
            command += ["--seconds", format(decimal.Decimal(seconds).quantize(decimal.Decimal("0.001")), "f")]
        if workers is not None:
            command += ["--workers", str(workers)]
        if proof is not None:
            command += ["--proof", os.path.abspath(proof)]
        status, told = _run(command, stop)
        if status not in (0, 5):
            raise KonhrathError(told)
        found = json.loads(shown.read_text())
        return Answer(
            permutation=[place - 1 for place in found["permutation"]],
            cost=_number(found["cost"]),
            bound=_number(found["bound"]),
            optimal=found["status"] == "optimal",
            seconds=found["milliseconds"] / 1000,
            proof=None if proof is None else os.fspath(proof),
        )


def verify(
    flow: Matrix,
    distance: Matrix,
    proof: Union[str, os.PathLike],
) -> str:
    """What a proof establishes: `optimal C`, `gap G C` or `part G`, in the whole numbers that the decimals were scaled to.

    A file that is not a valid proof for this problem raises `KonhrathError`, no matter who produced it.
    """
    with tempfile.TemporaryDirectory(prefix="konhrath-") as room:
        problem = _write(pathlib.Path(room), flow, distance, None)
        done = subprocess.run(
            [_program("qapverify"), problem, os.path.abspath(proof)], capture_output=True, text=True, check=False
        )
        if done.returncode not in (0, 5):
            raise KonhrathError(done.stderr.strip())
        return done.stdout.strip()


def _program(name: str) -> str:
    """The path of a program, in the folder that KONHRATH_BIN names or else in the package."""
    folder = os.environ.get("KONHRATH_BIN") or pathlib.Path(__file__).parent / "bin"
    return os.path.join(folder, name)


def _run(command: list, stop: pathlib.Path) -> tuple[int, str]:
    """The status of a command and its messages; Ctrl-C stops it with its answer, a second one kills it."""
    child = subprocess.Popen(
        [os.fspath(word) for word in command],
        stdin=subprocess.DEVNULL,
        stdout=subprocess.DEVNULL,
        stderr=subprocess.PIPE,
        text=True,
        start_new_session=True,
    )
    try:
        try:
            _, told = child.communicate()
        except KeyboardInterrupt:
            stop.touch()
            _, told = child.communicate()
    except BaseException:
        child.kill()
        child.wait()
        raise
    return child.returncode, told.strip()


def _decimal(value: Number) -> str:
    """A number as the programs read it."""
    if hasattr(value, "item"):
        value = value.item()
    number = decimal.Decimal(repr(value) if isinstance(value, float) else value)
    if not number.is_finite():
        raise ValueError(f"{value} is no number")
    text = format(number, "f")
    return text.rstrip("0").rstrip(".") if "." in text else text


def _number(text: str) -> Number:
    """A number that a program wrote."""
    return decimal.Decimal(text) if "." in text else int(text)


def _rows(matrix: Matrix, what: str) -> list[list[str]]:
    """The numbers of a square matrix."""
    rows = [[_decimal(value) for value in row] for row in matrix]
    if not rows or any(len(row) != len(rows) for row in rows):
        raise ValueError(f"the {what} matrix is not square")
    return rows


def _write(room: pathlib.Path, flow: Matrix, distance: Matrix, fixed: Optional[Mapping[int, int]]) -> pathlib.Path:
    """The file of the problem: an instance in QAPLIB's format if all numbers are whole and nothing is fixed, and else a plan."""
    flows, distances = _rows(flow, "flow"), _rows(distance, "distance")
    if len(flows) != len(distances):
        raise ValueError("the matrices have different sizes")
    size = range(len(flows))
    if not fixed and all(value.lstrip("-").isdigit() for row in flows + distances for value in row):
        file = room / "problem.dat"
        file.write_text("\n".join([str(len(flows)), *(" ".join(row) for row in flows + distances), ""]))
        return file
    for name, letter, rows in (("flows", "f", flows), ("distances", "p", distances)):
        names = [f"{letter}{number}" for number in size]
        lines = [",".join(["", *names])] + [",".join([names[number], *rows[number]]) for number in size]
        (room / f"{name}.csv").write_text("\n".join(lines) + "\n")
    plan = 'flows = "flows.csv"\ndistances = "distances.csv"\n'
    if fixed:
        plan += "\n[fixed]\n" + "".join(f'f{int(facility)} = "p{int(place)}"\n' for facility, place in fixed.items())
    file = room / "problem.toml"
    file.write_text(plan)
    return file
