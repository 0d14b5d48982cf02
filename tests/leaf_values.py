#!/usr/bin/env python3
"""leaf_values.py INSTANCE PROOF: prints the leaves of a proof `qapproof 2` whose values are below its cost, as `qapverify` does.

The values are by check_pair_proof.py, which shares no code with Konhrath."""
import sys

import check_pair_proof


class Leaves(check_pair_proof.Checker):
    """Also lists leaves: a node with an `x` line with its z, and a child without a text with the z that closes it."""
    def __init__(self, n, a, b, lines, bound, cost):
        super().__init__(n, a, b, lines, bound)
        self.step, self.cost, self.above, self.found = check_pair_proof.cost_step(n, a, b), cost, [], []
    def list(self, x, scale, z):
        value = -(-z // (scale * self.step)) * self.step
        if value < self.cost:
            words = [f" {i + 1} {x[i] + 1}" for i in x]
            self.found.append(f"short {value} node{''.join(words)}")
    def read_duals(self, *given):
        self.duals = super().read_duals(*given)
        return self.duals
    def line(self, *given):
        self.lined = super().line(*given)
        return self.lined
    def child(self, duals, F, L, z, R, h, g):
        self.placed, self.is_leaf = {**self.above[-1], h: g}, False
        return super().child(duals, F, L, z, R, h, g)
    def is_closed(self, duals, F, L, z, R):
        of_minima, _ = self.line(F, L, z, R, [min(R[i, k] for k in L) for i in F])
        self.list(self.placed, duals[0], max(z, of_minima))
        return True
    def node(self, x, words, duals=None, z=None, R=None):
        self.above.append(x)
        self.duals, self.is_leaf = duals, True
        super().node(x, words, duals, z, R)
        if self.is_leaf:
            self.list(x, self.duals[0], self.lined[0])
        self.is_leaf = False
        self.above.pop()


if __name__ == "__main__":
    with open(sys.argv[1]) as instance, open(sys.argv[2], "rb") as file:
        cost = file.read().split(b"\n")[2]
        file.seek(0)
        made = []
        def checker(*given):
            made.append(Leaves(*given, int(cost[5:])))
            return made[0]
        check_pair_proof.Checker = checker
        check_pair_proof.check(instance.read(), file)
    print("\n".join(made[0].found))
