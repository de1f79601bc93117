"""The tables of figures in README.md and docs/benchmarks.md, made of what docs/figures keeps. docs/count writes them."""

import os
import statistics
import sys

sys.dont_write_bytecode = True
sys.path.insert(0, os.path.dirname(os.path.realpath(__file__)))
import kept  # noqa: E402
import measured_code  # noqa: E402

NAMES = {"ring": "`ring_queue`", "queue": "`queue`", "stack": "`stack`"}
PASSES = {f"{kind}-pass": f"{called}, by a pass of `split`" for kind, called in NAMES.items()}
OTHERS = {"mutex-stack": "mutex and vector", "mutex-queue": "mutex and deque", "moodycamel": "moodycamel's `ConcurrentQueue`"}
FROM_RATTLE = {"array-queue": "crossbeam's `ArrayQueue`"}
# What the README says of each container beside its figures: its name, its order, and how many values it takes in its life, with
# 2^42 - 1 tags, of which a stack uses two for a value. A ring of 1,024 slots takes each of its 2^41 - 1 laps' values.
TAKEN = {
    "ring": ("`ring_queue`", "FIFO", (2**41 - 1) * 1024),
    "queue": ("`queue` (Michael-Scott)", "FIFO", 2**42 - 1),
    "stack": ("`stack` (Treiber)", "LIFO", (2**42 - 1) // 2),
}
DAY, YEAR = 86_400, 31_557_600
# The lives of docs/lifetime.md: what a container is called, its kind, and how many values it takes; and the values a second.
LIVES = (
    ("`ring_queue`, 1,024 slots", "ring", TAKEN["ring"][2]), ("`ring_queue`, 64 slots", "ring", TAKEN["ring"][2] // 16),
    ("`queue`", "queue", TAKEN["queue"][2]), ("`stack`", "stack", TAKEN["stack"][2]),
)
RATES = (1_000_000, 100_000, 1_000)


def between(numbers, form):
    low, high = form(min(numbers)), form(max(numbers))
    return low if low == high else f"{low} to {high}"


def ratio(value):
    return f"{value:.2f}"


def microseconds(value):
    """Nanoseconds in microseconds, with two digits; a third would say more than was measured."""
    return f"{value / 1000:.2f}" if value < 995 else f"{value / 1000:.1f}" if value < 9_950 else f"{value / 1000:.0f}"


def plain(rows, **wanted):
    """The rows with these cells, by default of 8 bytes and without work."""
    cells = {"bytes": "8", "work": "0", **wanted}
    return [row for row in rows if all(row[name] == cell for name, cell in cells.items())]


def headline(about, rows):
    """The rows of the build that the pages show."""
    return [row for row in rows if row["build"] == about["headline"]]


def ratios(rows):
    return [kept.number(row["ratio"]) for row in rows]


def ratio_of(rows):
    return between(ratios(rows), ratio) if rows else "-"


def with_quartiles(rows):
    """The ratio of the one row, and in brackets the quartiles of its rounds, where they are known."""
    if not rows:
        return "-"
    row, = rows
    return row["ratio"] if row["q1"] == "-" else f"{row['ratio']} ({row['q1']}, {row['q3']})"


def slowest(rows, column="p999"):
    return [kept.number(row[column]) for row in rows if row[column] != "-"]


def tail_of(rows, column):
    found = slowest(rows, column)
    return microseconds(found[0]) if found else "-"


def lasts(values, a_second=1_000_000):
    """How long these values last at this rate, rounded down to years, months or days."""
    seconds = values // a_second
    if seconds < 90 * DAY:
        return f"{seconds // DAY} day" + "s" * (seconds >= 2 * DAY)
    return f"{seconds // YEAR:,} years" if seconds >= 2 * YEAR else f"{seconds * 12 // YEAR} months"


def lives(_):
    """The lives of containers by the rate at which values pass, the ring first. The last row is of the measured speed of one thread."""
    about, rows = kept.read(kept.SPEED)
    alone = {row["container"]: kept.number(row["ns"]) for row in plain(headline(about, rows), threads="one")}
    yield "| Values a second | " + " | ".join(called for called, _, _ in LIVES) + " |\n|---|" + "---|" * len(LIVES) + "\n"
    for rate in RATES:
        yield f"| {rate:,} | " + " | ".join(lasts(values, rate) for _, _, values in LIVES) + " |\n"
    fastest = (lasts(int(values * alone[kind]), 1_000_000_000) for _, kind, values in LIVES)
    yield f"| one thread from C++ without a pause, {kept.at_commit(about)} | " + " | ".join(fastest) + " |\n"


def containers(rows):
    """Each container between threads, without work and with it, its tail beside Boost's, and its life: a row of the README's table."""
    yield "| C++ | Order | Time, Boost's = 1 | With work | p99.9, µs (Boost's) | Worn out in |\n|---|---|---|---|---|---|\n"
    for name, (called, order, values) in TAKEN.items():
        shared, working = ([row for row in plain(rows, container=name, work=work) if row["threads"] != "one"] for work in ("0", "480"))
        tails = f"{between(slowest(shared), microseconds)} ({between(slowest(shared, 'boost_p999'), microseconds)})"
        yield f"| {called} | {order} | {ratio_of(shared)} | {ratio_of(working)} | {tails} | {lasts(values)} |\n"


def case_rows(rows, names):
    """One row for one case: the ratio and the tail, without work and with it."""
    yield "| Container | Capacity | Threads | Ratio to Boost | p99.9, µs | Boost's | With work: ratio | p99.9, µs | Boost's |\n"
    yield "|---|---|---|---|---|---|---|---|---|\n"
    for name, called in names.items():
        for row in plain(rows, container=name):
            case = {"container": name, "capacity": row["capacity"], "threads": row["threads"]}
            working = plain(rows, **case, work="480")
            cells = [called, f"{int(row['capacity']):,}", row["threads"]]
            for found in ([row], working):
                cells += [with_quartiles(found), *(tail_of(found, column) for column in ("p999", "boost_p999"))]
            yield "| " + " | ".join(cells) + " |\n"


def cases(rows):
    yield from case_rows(rows, NAMES)


def is_between_threads(row):
    return row["threads"] != "one" and row["ratio"] != "-"


def mean(rows):
    """The geometric mean of the ratios between threads."""
    found = ratios(filter(is_between_threads, rows))
    return ratio(statistics.geometric_mean(found)) if found else "-"


def means(rows):
    """The containers beside one another: the mean ratio of all cases between threads, by the work between calls."""
    works = sorted({int(row["work"]) for row in rows})
    yield "| Container | " + " | ".join(f"{work} ns of work" if work else "Without work" for work in works) + " |\n"
    yield "|---|" + "---|" * len(works) + "\n"
    for name, called in {**NAMES, **OTHERS}.items():
        found = [plain(rows, container=name, work=str(work)) for work in works]
        if any(found):
            yield f"| {called} | " + " | ".join(map(mean, found)) + " |\n"


def means_by_capacity(rows):
    """The same for each capacity by itself, of the ring and of the queues beside it."""
    places = [(capacity, work) for capacity in ("4096", "8") for work in ("0", "480")]
    heads = [f"{int(capacity):,} slots, " + (f"{work} ns of work" if work != "0" else "without work") for capacity, work in places]
    yield "| Container | " + " | ".join(heads) + " |\n|---|" + "---|" * len(places) + "\n"
    for name, called in {"ring": NAMES["ring"], **OTHERS}.items():
        found = [plain(rows, container=name, capacity=capacity, work=work) for capacity, work in places]
        if any(found) and "stack" not in name:
            yield f"| {called} | " + " | ".join(map(mean, found)) + " |\n"


def others(rows):
    """The other containers, one row for one case."""
    yield from case_rows(rows, OTHERS)


def sizes(rows):
    """The ratio by the size of a value: one row for one case."""
    found = sorted({int(row["bytes"]) for row in rows})
    yield "| Container | Capacity | Threads | " + " | ".join(f"{size} bytes" for size in found) + " |\n"
    yield "|---|---|---|" + "---|" * len(found) + "\n"
    for name, called in NAMES.items():
        for row in plain(rows, container=name):
            case = {"container": name, "capacity": row["capacity"], "threads": row["threads"]}
            of_sizes = [ratio_of(plain(rows, **case, bytes=str(size))) for size in found]
            yield f"| {called} | {int(row['capacity']):,} | {row['threads']} | " + " | ".join(of_sizes) + " |\n"


def builds_of(rows):
    return list(dict.fromkeys(row["build"] for row in rows))


def builds(rows):
    """The ratios by how both sides were compiled, where that was measured: one row for one case, and one for calls by a pass."""
    found = builds_of(rows)
    yield "| Container | Capacity | Threads | " + " | ".join(f"`{build}`" for build in found) + " |\n"
    yield "|---|---|---|" + "---|" * len(found) + "\n"
    for name, called in {**NAMES, **PASSES}.items() if len(found) > 1 else ():
        for row in plain(rows, container=name, build=found[0]):
            case = {"container": name, "capacity": row["capacity"], "threads": row["threads"]}
            cells = [with_quartiles(plain(rows, **case, build=build)) for build in found]
            yield f"| {called} | {int(row['capacity']):,} | {row['threads']} | " + " | ".join(cells) + " |\n"


def calls(rows):
    """What a call costs that changes nothing, and in brackets Boost's, by how both were compiled."""
    found = builds_of(rows)
    yield "| Container | Call | " + " | ".join(f"ns (Boost's), `{build}`" for build in found) + " |\n|---|---|" + "---|" * len(found) + "\n"
    for row in rows:
        if row["build"] == found[0]:
            same = [it for it in rows if (it["container"], it["call"], it["bytes"]) == (row["container"], row["call"], row["bytes"])]
            cells = [f"{float(it['here']):g} ({float(it['boost']):g})" for it in same]
            yield f"| {NAMES[row['container']]} | {row['call']} | " + " | ".join(cells) + " |\n"


def instructions(_):
    """The instructions of calls on one thread, as tests/instructions compares them."""
    with open(f"{measured_code.TOP}/tests/instructions.txt", encoding="utf-8") as file:
        counts = dict(line.split()[:2] for line in file if not line.startswith("#"))
    columns = {"push and pop": "rattle.{}.pair", "refused push": "rattle.{}.refused-put", "refused pop": "rattle.{}.refused-take", "look": "rattle.{}.look"}
    yield "| Container | " + " | ".join(columns) + " |\n|---|" + "---|" * len(columns) + "\n"
    for name, called in NAMES.items():
        yield f"| {called} | " + " | ".join(f"{float(counts[form.format(name)]):.0f}" for form in columns.values()) + " |\n"


# The tables of figures.
OF_SPEED = {"cases": cases, "builds": builds, "sizes": sizes, "means": means, "means_by_capacity": means_by_capacity, "others": others}
OF_CALLS = {"calls": calls}
OF_ALL_BUILDS = (builds, calls)


def table(make, about, rows):
    """A table, and under it the commit that was measured; without rows a sentence."""
    made = "".join(make(rows if make in OF_ALL_BUILDS else headline(about, rows)))
    has_rows = made.count("\n") > 2
    yield f"{made}\nMeasured {kept.at_commit(about)}.\n" if has_rows else "Not measured yet.\n"


def array_queue(_):
    """The array queue, which nothing measures anew."""
    about, rows = kept.read(kept.ARRAY_QUEUE)
    yield from case_rows(rows, FROM_RATTLE)
    yield f"\nMeasured at commit `{about['commit']}`. No program of this tree calls it any more.\n"


def of(about, speed, calls_made):
    """All tables of these figures, for bench/compare to print."""
    for tables, rows in ((OF_SPEED, speed), (OF_CALLS, calls_made)):
        for name, make in tables.items():
            yield f"{name}:\n\n" + "".join(table(make, about, rows))


def spread(rows):
    """How far apart the quartiles of the rounds are, and the medians of the measurements, in percent of the ratio."""
    for low, high, called in (("q1", "q3", "quartiles of the rounds"), ("low", "high", "medians of the measurements")):
        parts = sorted(100 * (kept.number(row[high]) - kept.number(row[low])) / kept.number(row["ratio"]) for row in rows)
        middle, most = statistics.median(parts), parts[len(parts) * 9 // 10]
        yield f"The {called} of a ratio lie at most {middle:.0f} % of it apart in half of the rows, and at most {most:.0f} % in nine of ten."


def machine(_):
    about, rows = kept.read(kept.SPEED)
    yield f"The figures are {about['rounds']}, of {about['machine']} ({about['compilers']}). "
    yield f"Boost's containers and those here were compiled with `{about['headline']}`, unless a table names another build.\n"
    if all(row["q1"] != "-" for row in rows):
        yield "".join(f"{sentence}\n" for sentence in spread(rows))


def kept_table(make, path):
    return lambda _: table(make, *kept.read(path))


TABLES = {
    "machine": machine,
    "instructions": instructions,
    "lives": lives,
    "containers": lambda _: containers(headline(*kept.read(kept.SPEED))),
    "array_queue": array_queue,
    **{name: kept_table(make, kept.SPEED) for name, make in OF_SPEED.items()},
    **{name: kept_table(make, kept.CALLS) for name, make in OF_CALLS.items()},
}
