"""The tables of figures of the queue for one producer and one consumer, in docs/benchmarks.md and docs/cpp.md, made of what
docs/figures/spsc.tsv keeps. docs/count writes them."""

import kept
import tables

# What tells one case from another, and how the tables call it.
CASE = {"threads": "Threads", "capacity": "Capacity", "bytes": "Bytes", "values": "A call has"}
VALUES = {"1": "one value", "16": "an array of 16"}
# The cases in short, and how their threads are called there.
SHORT = {"capacity": "4096", "bytes": "8"}
THREADS = {"one": "one, in turn", "1 + 1": "a producer and a consumer"}
NO_ASSERTIONS = " -DNDEBUG"


def line(cells):
    return "| " + " | ".join(cells) + " |\n"


def head(names):
    return line(names) + "|" + "---|" * len(names) + "\n"


def said(row, columns):
    """The cells that name a case."""
    forms = {"capacity": lambda cell: f"{int(cell):,}", "values": VALUES.get}
    return [forms.get(it, str)(row[it]) for it in columns]


def chosen(rows, **cells):
    return [row for row in rows if all(row[name] == cell for name, cell in cells.items())]


def ratio_in(rows, case, container, build):
    """The ratio of a container in the case of another row, with its quartiles."""
    return tables.with_quartiles(chosen(rows, container=container, build=build, **{it: case[it] for it in CASE}))


def cases(about, rows):
    """One row for one case, by the build that the pages show."""
    build = about["headline"]
    yield head([*CASE.values(), "`spsc_queue`, ns", "Boost's, ns", "Ratio to Boost", "Its two ends: ratio", "`ring_queue`, two passes: ratio"])
    found = chosen(rows, container="spsc", build=build)
    for row in found:
        ratios = (ratio_in(rows, row, it, build) for it in ("spsc", "spsc-ends", "ring-pass"))
        yield line([*said(row, CASE), row["ns"], row["boost_ns"], *ratios])
    yield f"\n{verdict(found)} The figures are {about['rounds']}, of {about['machine']} ({about['compilers']}).\n"


def builds(_, rows):
    """The ratios of the queue by how both sides were compiled, where that was measured: one row for one case."""
    found = tables.builds_of(rows)
    names = [it for it in CASE if it != "bytes"]
    yield head([*(CASE[it] for it in names), *(f"`{it}`" for it in found)])
    for row in chosen(rows, container="spsc", build=found[0], bytes="8"):
        yield line([*said(row, names), *(ratio_in(rows, row, "spsc", it) for it in found)])


def in_short(about, rows):
    """The cases of one capacity and one size, for users of C++."""
    build = about["headline"]
    ratios = {
        "Ratio to Boost": ("spsc", build), f"Without `{NO_ASSERTIONS.strip()}`": ("spsc", build.removesuffix(NO_ASSERTIONS)),
        "`ring_queue`, two passes: ratio": ("ring-pass", build),
    }
    yield head(["Threads", "A call has", "`spsc_queue`, ns", "Boost's, ns", *ratios])
    found = chosen(rows, container="spsc", build=build, **SHORT)
    for row in found:
        yield line([THREADS[row["threads"]], VALUES[row["values"]], row["ns"], row["boost_ns"], *(ratio_in(rows, row, *it) for it in ratios.values())])
    yield f"\nThe time is that of a value of {SHORT['bytes']} bytes, from its push to its pop; the capacity is {int(SHORT['capacity']):,}. {verdict(found)}\n"


def verdict(rows):
    """In how many cases the queue is slower than Boost's, and in how many it is faster, by the middle half of the rounds."""
    slower = [row for row in rows if quartile(row, "q1") > 1]
    faster = [row for row in rows if quartile(row, "q3") < 1]
    rest = len(rows) - len(slower) - len(faster)
    return (f"Of these {len(rows)} cases, compiled with `{rows[0]['build']}`, `spsc_queue` takes more time than Boost's in {how_many(slower, 'times as much')}"
            f" and less in {how_many(faster, 'of it')}{f'; in {rest} the quartiles of the rounds lie on both sides of 1' if rest else ''}.")


def quartile(row, name):
    """Of too few rounds the median."""
    return kept.number(row["ratio"] if row[name] == "-" else row[name])


def how_many(rows, unit):
    return f"{len(rows)} ({tables.ratio_of(rows)} {unit})" if rows else "none"


def table(make, about, rows):
    """A table, and under it the commit that was measured; without rows a sentence."""
    made = "".join(make(about, rows)) if rows else ""
    yield f"{made}\nMeasured {kept.at_commit(about)}.\n" if rows else "Not measured yet.\n"


MADE = {"spsc": cases, "spsc_builds": builds, "spsc_in_short": in_short}


def of(about, rows):
    """All tables of these figures, for bench/compare_spsc to print."""
    for name, make in MADE.items():
        yield f"{name}:\n\n" + "".join(table(make, about, rows))


def kept_table(make):
    return lambda _: table(make, *kept.read(kept.SPSC))


TABLES = {name: kept_table(make) for name, make in MADE.items()}
