"""Runs programs in turns on bound cores, and reads what they print."""

import os
import re
import statistics
import subprocess
import sys

# The percentiles of a call, which peers.cpp prints beside nanoseconds of an item, and their places among the figures of a run.
# spsc.cpp prints nanoseconds of an item alone, and refusals.cpp those of a call.
PRINTED = ("50th", "99th", "99.9th")
PERCENTILES = {"p50": 1, "p99": 2, "p999": 3}
P999 = PERCENTILES["p999"]
# Seconds after which a run hangs: one takes at most a few.
LIMIT = 60


def pinned(command, threads, real_time):
    """The command bound to as many cores as it has threads, at most all."""
    cores = sorted(os.sched_getaffinity(0))[-max(threads, 1):]
    first = ["chrt", "-f", "1"] if real_time else []
    return [*first, "taskset", "-c", ",".join(map(str, cores)), *command]


def measured(command):
    """What a program prints: nanoseconds of an item or a call, and the percentiles of a call if it has them."""
    try:
        run = subprocess.run(command, capture_output=True, text=True, check=False, timeout=LIMIT)
    except subprocess.TimeoutExpired:
        sys.exit(f"a run hangs: {' '.join(command)}")
    found = [re.search(r"nanoseconds (?:per item|of a call): ([\d.]+)", run.stdout)]
    if "percentile" in run.stdout:
        found += [re.search(rf"{re.escape(name)} percentile: (\d+)", run.stdout) for name in PRINTED]
    if run.returncode or not all(found):
        sys.exit(f"a run failed: {' '.join(command)}\n{run.stderr[-500:]}")
    return [float(one.group(1)) for one in found]


def one_round(programs, number):
    """Runs each program once, every other round in the opposite order; returns the figures of each."""
    names = list(programs) if number % 2 == 0 else list(programs)[::-1]
    return {name: measured(programs[name]) for name in names}


def median(rounds, name, place=0):
    """The median of a figure over the rounds, by default of the time of an item."""
    return statistics.median(one[name][place] for one in rounds)


def ratios(rounds, name, base):
    """The ratios of an item's time, round by round."""
    return [one[name][0] / one[base][0] for one in rounds]


def quartiles(numbers):
    """The first and the third quartile; nothing of fewer than four numbers."""
    if len(numbers) < 4:
        return None, None
    first, _, third = statistics.quantiles(numbers, n=4, method="inclusive")
    return first, third


def parts(rounds, count):
    """The rounds in so many parts, one after another, that are equally long but for one round."""
    ends = [len(rounds) * at // count for at in range(count + 1)]
    return [rounds[begin:end] for begin, end in zip(ends, ends[1:]) if end > begin]
