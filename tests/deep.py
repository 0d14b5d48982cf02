"""deep.py SIZE whole|cost|bound|cut: writes zeros.dat, an instance of that size whose entries are 0, and deep.cert, a
certificate for it whose tree has a path of SIZE splits. With `cost` it states a cost of 1, with `bound` the first child
of the root has duals that do not fit, and with `cut` the text ends behind the last split. Cases use it."""

import sys


def tree(size, first):
    """The lines of the tree: in each split the last child is a split too, down to the permutation."""
    for depth in range(size):
        yield f"s {depth + 1}"
        free = size - depth - 1
        for child in range(free):
            yield "b" + (f" {first}" if depth == child == 0 else " 0") + " 0" * (2 * free - 1)
    yield "b"


def cut(size):
    """The lines of a path of splits, and no more."""
    return (f"s {depth + 1}" for depth in range(size))


def certificate(size, kind):
    yield from ("qapcert 2", f"n {size}", f"cost {int(kind == 'cost')}")
    yield "perm " + " ".join(str(k + 1) for k in range(size))
    if kind == "cut":
        yield from cut(size)
    else:
        yield from tree(size, int(kind == "bound"))
        yield "end"


if __name__ == "__main__":
    size, kind = int(sys.argv[1]), sys.argv[2]
    row = " ".join("0" * size) + "\n"
    with open("zeros.dat", "w") as file:
        file.write(f"{size}\n" + row * (2 * size))
    with open("deep.cert", "w") as file:
        file.writelines(line + "\n" for line in certificate(size, kind))
