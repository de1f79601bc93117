"""What bench/compare and bench/compare_spsc share: most of their words, the rounds in which programs run in turns, and the files of figures."""

import argparse
import os
import platform
import statistics
import subprocess
import sys
import tempfile
import time
from typing import NamedTuple

ROOT = os.path.dirname(os.path.dirname(os.path.abspath(__file__)))
sys.path.insert(0, f"{ROOT}/docs/figures")
import kept  # noqa: E402
import measured_code  # noqa: E402
import programs as all_programs  # noqa: E402
import turns  # noqa: E402

# The fewest rounds of a measurement that the pages show.
FEWEST = 4


def parser_of(doc, minutes, rounds, builds):
    """The words that both have."""
    parser = argparse.ArgumentParser(description=doc, formatter_class=argparse.RawDescriptionHelpFormatter)
    parser.add_argument("--write", action="store_true")
    parser.add_argument("--minutes", type=float, default=minutes)
    parser.add_argument("--rounds", type=int, default=rounds)
    parser.add_argument("--measurements", type=int, default=2)
    parser.add_argument("--builds", nargs="+", default=list(builds), choices=builds)
    parser.add_argument("--real-time", action="store_true")
    parser.add_argument("--machine", default=f"{os.cpu_count()} cores, {platform.system()} on {platform.machine()}")
    parser.add_argument("--archive", type=os.path.abspath, default=all_programs.ARCHIVE)
    parser.add_argument("--into", type=os.path.abspath)
    return parser


def fault_of(words, command):
    """Why nothing can be measured so, or None."""
    if words.write and words.into:
        return "--write writes the pages' figures, and --into writes others"
    if words.write and not measured_code.commit(command):
        return "code on which the figures depend is not committed"
    if lacking := all_programs.missing_compilers(words.builds):
        return f"{', '.join(lacking)} is not installed: say the other --builds"
    if not os.path.exists(words.archive):
        return f"there is no {words.archive}"
    if words.real_time and subprocess.run(["chrt", "-f", "1", "true"], check=False).returncode:
        return "--real-time is not allowed here"
    return None


def tell(*words):
    print(f"{os.path.basename(sys.argv[0])}:", *words, file=sys.stderr, flush=True)


class Case(NamedTuple):
    """Programs that run in turns, and the rows of figures that are made of their rounds, for one of the files."""

    commands: dict
    path: str
    rows: object


class Run:
    """Measures all cases, and says how far it is."""

    def __init__(self, words, command):
        self.words, self.command = words, command
        self.start = time.monotonic()
        self.cases, self.done = [], []

    def measure(self, programs_of, cases_of):
        """Compiles the programs, and runs them in rounds. False if there was no time for one."""
        tell(f"load {os.getloadavg()[0]:.1f} before it begins; it compiles")
        with tempfile.TemporaryDirectory() as folder:
            programs = programs_of(self.words, folder)
            self.cases = list(cases_of(self.words, programs))
            programs.compile_all()
            tell(f"{len(programs.wanted)} programs are compiled, {self.minutes():.1f} minutes gone")
            self.make_rounds()
        return bool(self.done)

    def minutes(self):
        return (time.monotonic() - self.start) / 60

    def make_rounds(self):
        """Of each case what was measured, round by round."""
        longest = 0.0
        while len(self.done) < self.words.rounds:
            begun = self.minutes()
            if begun + 1.05 * longest > self.words.minutes:
                tell(f"no time is left for another round of {longest:.1f} minutes")
                break
            self.done.append([turns.one_round(case.commands, len(self.done)) for case in self.cases])
            longest = max(longest, self.minutes() - begun)
            left = min((self.words.rounds - len(self.done)) * longest, self.words.minutes - self.minutes())
            tell(f"{len(self.done)} of {self.words.rounds} rounds, {self.minutes():.1f} minutes gone, at most {max(left, 0):.1f} to come")

    def rows(self, path):
        """The rows of one of the files."""
        return [row for at, case in enumerate(self.cases) if case.path == path for row in case.rows([one[at] for one in self.done])]

    def about(self):
        """What the first lines of the files say."""
        measurements = min(self.words.measurements, len(self.done))
        many = f"{measurements} measurements, one after another" if measurements > 1 else "one measurement"
        return {
            "commit": measured_code.commit(self.command) or "none", "code": measured_code.digest(self.command), "machine": self.words.machine,
            "compilers": all_programs.versions(self.words.builds), "headline": self.words.builds[0],
            "rounds": f"medians of {len(self.done)} rounds in {many}{', at real-time priority' if self.words.real_time else ''}",
        }

    def keep(self, rows_by_path):
        """Writes the rows to the files, if that is asked for. Returns the status of the command."""
        if self.words.write and len(self.done) < FEWEST * self.words.measurements:
            tell(f"{len(self.done)} rounds are too few for the pages: nothing is written")
            return 1
        if self.words.write or self.words.into:
            for path, rows in rows_by_path.items():
                kept.write(path, self.about(), rows, self.words.into)
        return 0


def plain(value, digits=1):
    return "-" if value is None else f"{value:.{digits}f}"


def beside(rounds, name, base, measurements):
    """The cells of a container that ran beside another one: the time of an item, and its ratio."""
    ratios = turns.ratios(rounds, name, base)
    of_parts = [statistics.median(part) for part in turns.parts(ratios, measurements)]
    first, third = turns.quartiles(ratios)
    return {
        "ns": plain(turns.median(rounds, name)), "boost_ns": plain(turns.median(rounds, base)), "ratio": plain(statistics.median(ratios), 2),
        "q1": plain(first, 2), "q3": plain(third, 2), "low": plain(min(of_parts), 2), "high": plain(max(of_parts), 2),
    }
