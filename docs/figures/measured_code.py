"""The code on which measured figures depend: that which is measured, and that which measures.

A comment, a contract or a line break changes no figure, so it changes no digest."""

import functools
import glob
import hashlib
import os
import re
import subprocess

TOP = os.path.dirname(os.path.dirname(os.path.dirname(os.path.realpath(__file__))))
# What is measured: the crate that is called, and the headers.
CRATE = "lockfree_c"
HEADERS = ("c/lockfree.h", "c/lockfree.hpp", "c/lockfree/*.hpp")
# What measures it: the programs of each command.
PROGRAMS = {"bench/compare": ("bench/peers.cpp", "bench/refusals.cpp"), "bench/compare_spsc": ("bench/spsc.cpp",)}
COMMENT = re.compile(r"//[^\n]*|/\*.*?\*/", re.S)
IMPORT = re.compile(r"\bghost use\b[^;]*;")
# How a contract or another text for the prover begins.
GHOST = re.compile(r"\b(?:(?:requires|ensures) ?\*?(?: \w+)?|ghost(?: \w+)?(?: ?: \w+)?(?: ?[:=])?)\s*(?=\{)")


def read(path):
    with open(f"{TOP}/{path}", encoding="utf-8") as file:
        return file.read()


def crates_below(name):
    """A crate and those that it uses, by crates.txt."""
    rows = [row for line in read("crates.txt").splitlines() if (row := line.split("#")[0].strip())]
    uses = {row.split(":")[0].split()[0]: row.partition(":")[2].split() for row in rows}
    found, ahead = set(), [name]
    while ahead:
        if (crate := ahead.pop()) in uses and crate not in found:
            found.add(crate)
            ahead += uses[crate]
    return sorted(found)


def all_paths(command):
    return [*(f"crates/{it}/src" for it in crates_below(CRATE)), *HEADERS, *PROGRAMS[command]]


def all_files(command):
    for path in all_paths(command):
        pattern = f"{path}/**/*.rt" if path.startswith("crates/") else path
        yield from sorted(os.path.relpath(it, TOP) for it in glob.glob(f"{TOP}/{pattern}", recursive=True))


def after_braces(text, begin):
    """The place after the brace that closes the one at `begin`."""
    depth = 0
    for at in range(begin, len(text)):
        depth += {"{": 1, "}": -1}.get(text[at], 0)
        if depth == 0:
            return at + 1
    return len(text)


def code_of(path):
    text = COMMENT.sub("", read(path))
    if path.endswith(".rt"):
        text = IMPORT.sub("", text)
        while ghost := GHOST.search(text):
            text = text[:ghost.start()] + text[after_braces(text, ghost.end()):]
    return " ".join(text.split())


@functools.cache
def digest(command):
    """A name for the code that a command measures, as it is in this tree."""
    whole = hashlib.sha256()
    for path in all_files(command):
        whole.update(f"{path}\n{code_of(path)}\n".encode())
    return whole.hexdigest()[:16]


def git(*words):
    """What git says; nothing if it fails, since an unpacked archive has no history."""
    done = subprocess.run(["git", *words], cwd=TOP, check=False, capture_output=True, text=True)
    return done.stdout.strip() if done.returncode == 0 else ""


def is_of_this_tree(code):
    """Whether a digest names the code as it is: each names the programs too, so only that of the same command can be equal."""
    return code in map(digest, PROGRAMS)


def commit(command):
    """The commit of this tree, unless files were changed on which the figures of a command depend."""
    return git("rev-parse", "--short=8", "HEAD") if not git("status", "--porcelain", "--", *all_paths(command)) else ""
