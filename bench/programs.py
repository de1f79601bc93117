"""The programs that bench/compare and bench/compare_spsc run in turns: compiles them, and knows those of bench/compare by the container."""

import os
import shutil
import subprocess
import sys
from concurrent.futures import ThreadPoolExecutor

import turns

ROOT = os.path.dirname(os.path.dirname(os.path.abspath(__file__)))
ARCHIVE = os.path.join(ROOT, "c", "out", "liblockfree.a")
BOOST = "boost"
# How programs are compiled. The first is what docs/cpp.md tells users, and all is measured with it.
BUILDS = ("g++ -O2", "g++ -O3", "clang++ -O2")
# moodycamel's capacity is a hint, and its least block has room for 32.
LEAST_OF_MOODYCAMEL = 32


def versions(builds):
    """What compilers these are, and which Boost."""
    found = []
    for compiler in dict.fromkeys(build.split()[0] for build in builds):
        said = subprocess.run([compiler, "-dumpfullversion", "-dumpversion"], check=True, capture_output=True, text=True).stdout
        found.append(f"{compiler} {said.split()[0]}")
    macros = subprocess.run(["g++", "-E", "-dM", "-x", "c++", "-include", "boost/version.hpp", os.devnull], check=True, capture_output=True, text=True).stdout
    boost = next(line.split('"')[1] for line in macros.splitlines() if "BOOST_LIB_VERSION" in line)
    return ", ".join([*found, f"Boost {boost.replace('_', '.')}"])


class Programs:
    """Programs in a folder. What is measured beside one another is compiled the same way."""

    def __init__(self, words, folder):
        self.words, self.folder, self.wanted = words, folder, {}

    def program(self, *which):
        """The path of a program, which is compiled by `compile_all`: its build, its source, whether it is over our containers,
        the capacity, and the bytes of a value."""
        build, source, ours, capacity, size = which
        name = f"{source}_{'ours' if ours else 'others'}_{capacity}_{size}_{build.replace(' ', '')}"
        return self.wanted.setdefault(which, os.path.join(self.folder, name))

    def compile(self, which):
        build, source, ours, capacity, size = which
        over = ["-DOURS", self.words.archive] if ours else []
        flags = ["-std=c++17", f"-DCAPACITY={capacity}", f"-DVALUE_BYTES={size}"]
        source = os.path.join(ROOT, "bench", f"{source}.cpp")
        command = [*build.split(), *flags, "-o", self.wanted[which], source, *over, "-pthread", "-latomic"]
        subprocess.run(command, check=True)

    def compile_all(self):
        """Compiles what was asked for and is not there yet."""
        missing = [which for which, path in self.wanted.items() if not os.path.exists(path)]
        with ThreadPoolExecutor(len(os.sched_getaffinity(0))) as pool:
            list(pool.map(self.compile, missing))

    def pinned(self, commands, threads):
        return {name: turns.pinned(command, threads, self.words.real_time) for name, command in commands.items()}


class Peers(Programs):
    """Those of bench/compare. Each method that returns commands returns those of what is measured beside one another."""

    def __init__(self, words, folder):
        super().__init__(words, folder)
        self.moodycamel = self.has_moodycamel()

    def has_moodycamel(self):
        others = self.program(self.words.builds[0], "peers", False, 4096, 8)
        self.compile_all()
        done = subprocess.run([others, "moodycamel", "0", "0", "1"], check=False, capture_output=True)
        if done.returncode:
            print("compare: no moodycamel: libconcurrentqueue-dev is not there", file=sys.stderr)
        return done.returncode == 0

    def command(self, build, kind, ours, case, work, size=8):
        capacity, producers, consumers, share = case
        # (work takes most of the time then, so that fewer items are as many calls that meet)
        items = self.words.items * share // (4 if work else 1)
        load = (producers, consumers, items, work)
        return [self.program(build, "peers", ours, capacity, size), kind, *map(str, load)]

    def beside_boost(self, build, kinds, others, case, work, size=8):
        """Containers of this repository and others, beside Boost's of the last of these kinds."""
        commands = {BOOST: self.command(build, kinds[-1], False, case, work, size)}
        alone = [f"{kind}-pass" for kind in kinds] if case[1] == 0 and size == 8 and not work else []
        commands |= {kind: self.command(build, kind, True, case, work, size) for kind in (*alone, *kinds)}
        commands |= {kind: self.command(build, kind, False, case, work, size) for kind in others}
        return self.pinned(commands, case[1] + case[2])

    def queues(self, build, case, work, size=8, others=()):
        if case[0] <= LEAST_OF_MOODYCAMEL or not self.moodycamel:
            others = [it for it in others if it != "moodycamel"]
        return self.beside_boost(build, ("ring", "queue"), others, case, work, size)

    def stacks(self, build, case, work, size=8, others=()):
        return self.beside_boost(build, ("stack",), others, case, work, size)

    def refusals(self, build, call):
        """Calls that change nothing."""
        ours, others = (self.program(build, "refusals", it, 64, 8) for it in (True, False))
        commands = {f"boost {kind}": [others, kind, call] for kind in ("stack", "queue")}
        return self.pinned(commands | {kind: [ours, kind, call] for kind in ("stack", "queue", "ring")}, 1)


def missing_compilers(builds):
    """The compilers of these builds that are not installed."""
    return [it for it in dict.fromkeys(build.split()[0] for build in builds) if not shutil.which(it)]
