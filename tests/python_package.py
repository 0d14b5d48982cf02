"""python_package.py small|proof|stopped|refused: uses the package `konhrath`; tests/python.cases runs it."""

import itertools
import os
import random
import signal
import sys
import threading
import time
from decimal import Decimal

import konhrath


def expect(condition, text):
    if not condition:
        sys.exit(text)


def cost_of(flow, distance, p):
    size = range(len(p))
    return sum(Decimal(str(flow[i][j])) * Decimal(str(distance[p[i]][p[j]])) for i in size for j in size)


def matrices(name):
    numbers = [int(word) for word in open(name).read().split()]
    n = numbers[0]
    rows = [numbers[1 + n * i : 1 + n * (i + 1)] for i in range(2 * n)]
    return rows[:n], rows[n:]


def small():
    drawn = random.Random(1)
    for case in range(12):
        n = drawn.randint(1, 5)
        digits = case % 3
        table = lambda: [[round(drawn.uniform(-9, 9), digits) if digits else drawn.randint(-9, 9) for _ in range(n)] for _ in range(n)]
        flow, distance = table(), table()
        fixed = {0: n - 1} if case % 2 else None
        answer = konhrath.solve(flow, distance, fixed=fixed, workers=2)
        kept = [p for p in itertools.permutations(range(n)) if not fixed or p[0] == n - 1]
        least = min(cost_of(flow, distance, p) for p in kept)
        expect(answer.optimal and answer.cost == answer.bound == least, f"{answer} for {flow}, {distance}, where {least} is least")
        expect(tuple(answer.permutation) in kept, f"{answer} is no permutation that keeps {fixed}")
        expect(cost_of(flow, distance, answer.permutation) == least, f"{answer} costs otherwise")
    print("ok")


def proof():
    flow, distance = matrices("nug12.dat")
    answer = konhrath.solve(flow, distance, proof="a.proof")
    expect(answer.proof == "a.proof", answer)
    print(konhrath.verify(flow, distance, "a.proof"))
    flow[0][1] += 1
    try:
        konhrath.verify(flow, distance, "a.proof")
    except konhrath.KonhrathError:
        return
    sys.exit("a proof of another instance is accepted")


def stopped():
    flow, distance = matrices("nug30.dat")
    interrupt = threading.Timer(2, os.kill, (os.getpid(), signal.SIGINT))
    for seconds in (1, None):
        if seconds is None:
            interrupt.start()
        began = time.monotonic()
        answer = konhrath.solve(flow, distance, seconds=seconds)
        expect(not answer.optimal and answer.bound <= 6124 <= answer.cost, answer)
        expect(answer.cost == cost_of(flow, distance, answer.permutation), answer)
        expect(time.monotonic() - began < 60, "it did not stop")
    print("ok")


def refused():
    for flow, distance in (([], []), ([[1, 2]], [[1, 2]]), ([[1]], [[1, 2], [3, 4]]), ([[float("nan")]], [[1]])):
        try:
            konhrath.solve(flow, distance)
        except ValueError:
            continue
        sys.exit(f"{flow}, {distance} is taken")
    for changed in ({"fixed": {0: 5}}, {"workers": 65}):
        try:
            konhrath.solve([[0, 1], [1, 0]], [[0, 1], [1, 0]], **changed)
        except konhrath.KonhrathError as error:
            expect(str(error), "a refusal says nothing")
            continue
        sys.exit(f"{changed} is taken")
    print("ok")


{"small": small, "proof": proof, "stopped": stopped, "refused": refused}[sys.argv[1]]()
