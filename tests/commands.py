"""Runs commands for tests, and says which failed."""
import argparse
import ctypes
import os
import signal
import subprocess
import time

TOP = os.path.dirname(os.path.dirname(os.path.abspath(__file__)))
C = f"{TOP}/c"
ARCHIVE = os.path.abspath(os.environ.get("LOCKFREE_ARCHIVE", f"{C}/out/liblockfree.a"))
LIMIT = 300  # seconds that one command may take
PATIENCE = 10  # seconds that a command has to end in, when it is told to
ADOPT_ORPHANS = 36  # PR_SET_CHILD_SUBREAPER of prctl(2)


class Failed(Exception):
    """What a command said that failed, or what is not so."""


def run(command, folder=TOP, more=None, limit=LIMIT):
    """Runs a command, and returns what it writes on standard output. It and what it has begun end with its time."""
    try:
        process = subprocess.Popen(command, cwd=folder, env={**os.environ, **(more or {})}, errors="replace", start_new_session=True,
                                   stdin=subprocess.DEVNULL, stdout=subprocess.PIPE, stderr=subprocess.PIPE)
        said, errors = process.communicate(timeout=limit)
    except OSError as fault:
        raise Failed(str(fault)) from fault
    except subprocess.TimeoutExpired as fault:
        os.killpg(process.pid, signal.SIGKILL)
        process.communicate()
        raise Failed(str(fault)) from fault
    if process.returncode:
        raise Failed(f"{' '.join(command)}: status {process.returncode}\n{said[-2000:]}{errors[-3000:]}")
    return said


def want(holds, what):
    if not holds:
        raise Failed(f"not so: {what}")


def parser_of(doc, command):
    """The parser of a command's words: --help prints `doc`, and a word that is not known ends the command with status 2."""
    parser = argparse.ArgumentParser(description=doc, usage=argparse.SUPPRESS, formatter_class=argparse.RawDescriptionHelpFormatter, allow_abbrev=False)
    parser.error = lambda why: parser.exit(2, f"{command}: {why}: see --help\n")
    return parser


def read(path):
    with open(os.path.join(TOP, path), encoding="utf-8") as file:
        return file.read()


def adopt_orphans():
    """From now on a process that this one began, in however many steps, becomes its child when its own parent ends."""
    ctypes.CDLL(None).prctl(ADOPT_ORPHANS, 1, 0, 0, 0)


def living_below(top):
    """The processes that this one began, in however many steps, and that have not ended."""
    children = {}
    for name in filter(str.isdigit, os.listdir("/proc")):
        try:
            with open(f"/proc/{name}/stat", encoding="utf-8", errors="replace") as file:
                state, parent = file.read().rpartition(")")[2].split()[:2]
        except OSError:  # (it has ended meanwhile)
            continue
        children.setdefault(int(parent), []).append((int(name), state not in "ZX"))
    found, ahead = set(), [top]
    while ahead:
        for pid, lives in children.get(ahead.pop(), ()):
            ahead.append(pid)
            if lives:
                found.add(pid)
    return found


def end_all_begun():
    """Ends the processes that this one began: each is told to once, and killed if it has not ended in time."""
    told, begun = set(), time.monotonic()
    while left := living_below(os.getpid()):
        late = time.monotonic() > begun + PATIENCE
        for pid in left if late else left - told:
            try:
                os.kill(pid, signal.SIGKILL if late else signal.SIGTERM)
            except ProcessLookupError:
                pass
        told |= left
        time.sleep(0.05)
