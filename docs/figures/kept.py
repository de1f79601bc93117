"""The figures that were measured: docs/figures/speed.tsv, calls.tsv and spsc.tsv, and whether they are of the code as it is.

The first lines of each file, which begin with '#', say what was measured: the commit, a digest of the code, the machine, the
compilers, the build that the pages show (`headline`) and the rounds. Then comes the line with the names of the columns. In
speed.tsv and spsc.tsv `ratio` is the median of all rounds, `q1` and `q3` are their quartiles, and `low` and `high` the lowest and
the highest median of a measurement. In spsc.tsv `values` is how many a call has. '-' is a figure that was not measured.
bench/compare --write writes speed.tsv and calls.tsv, and bench/compare_spsc --write spsc.tsv. Nothing writes array_queue.tsv
anew: it was measured from Rattle, by a program that this tree no longer has."""

import os

import measured_code

HERE = os.path.dirname(os.path.realpath(__file__))
SPEED, CALLS, SPSC, ARRAY_QUEUE = (f"{HERE}/{it}.tsv" for it in ("speed", "calls", "spsc", "array_queue"))
HEADS = {
    SPEED: "container build capacity threads bytes work ns boost_ns ratio q1 q3 low high p50 p99 p999 boost_p999".split(),
    CALLS: "container build call bytes here boost".split(),
    SPSC: "container build capacity threads bytes values ns boost_ns ratio q1 q3 low high".split(),
}


def read(path):
    """What a file says of its measurement, and its rows as dictionaries by the names of the columns."""
    with open(path, encoding="utf-8") as file:
        lines = file.read().splitlines()
    about = dict(line[2:].split(" ", 1) for line in lines if line.startswith("# "))
    names, *rows = (line.split("\t") for line in lines if not line.startswith("#"))
    return about, [dict(zip(names, row)) for row in rows]


def write(path, about, rows, folder=None):
    """Writes one of the files, or one of its name in another folder."""
    with open(os.path.join(folder or HERE, os.path.basename(path)), "w", encoding="utf-8") as file:
        file.writelines(f"# {name} {said}\n" for name, said in about.items())
        file.writelines("\t".join(row) + "\n" for row in [HEADS[path], *([row[it] for it in HEADS[path]] for row in rows)])


def number(cell):
    return None if cell == "-" else float(cell)


def at_commit(about):
    """Of which code figures are: the commit, and whether the code is another now."""
    is_now = measured_code.is_of_this_tree(about["code"])
    return f"at commit `{about['commit']}`{'' if is_now else ', before later changes'}"
