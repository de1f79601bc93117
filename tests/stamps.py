"""The stamps of wrong bodies: on which text the edits in a crate's wrong/ were last all refused.

A stamp, crates/NAME/wrong/stamp, has two digests. `own` is of the crate's src/ and specs/ and of its edits: a change there
may let a wrong body pass. `below` is of the statements of the crates below it: their specs/, and their src/ without the
bodies of functions, since a proof never looks into the body of a function that it calls. Proofs and lines that are only a
comment change neither digest. A body is found by the layout that rt fmt gives, so one with another layout is part of the
digest: then a stamp is stale too often, never too seldom. A name that is imported counts by the crate that defines it; the
file counts too if the crate has more than one definition of that name. So a definition may move to another file of its crate."""

import functools
import glob
import hashlib
import os
import re

TOP = os.path.dirname(os.path.dirname(os.path.abspath(__file__)))
ABOUT = "# On this text every edit in this folder was refused (tests/wrong-bodies --stamped)."
COMMENT = re.compile(r"^\s*(?://|--).*\n?", re.M)
IMPORT = r"[ \t]*(?:ghost )?use Rattle\.\w+\.specs\.[\w.]+\.\{[^{}]*\};?[ \t]*\n"
IMPORTS = re.compile(rf"^(?:{IMPORT})+", re.M)
PARTS = re.compile(r"use (Rattle\.(\w+)\.specs)\.([\w.]+)\.\{([^{}]*)\}")
DEFINED = re.compile(r"^\s*(?:abbrev pub|pub record|pub data|pub) ([\w◌+∷≡'-]+)", re.M)
FUNCTION = re.compile(r"^( *)(?:pub(?:\(\w+\))? |const |unsafe |extern \"\w+\" )*fn \w+")


def files(crate, *kinds):
    """The files of these folders of a crate."""
    found = [sorted(glob.glob(f"{TOP}/crates/{crate}/{kind}/**/*", recursive=True)) for kind in kinds]
    return [it for paths in found for it in paths if it.endswith((".rt", ".antt", ".edit"))]


def read(path):
    with open(path, encoding="utf-8") as file:
        return file.read() if path.endswith(".edit") else COMMENT.sub("", file.read())


@functools.lru_cache(maxsize=None)
def definitions(crate):
    """How many files of specs/ define each name."""
    count = {}
    for path in files(crate, "specs"):
        for name in {it for it in DEFINED.findall(read(path)) if it != "use"}:
            count[name] = count.get(name, 0) + 1
    return count


def with_imports_by_crate(text):
    """The text with each block of imports as a list of names, each with its crate, or with its file if that says which one is meant."""
    def listed(block):
        found = set()
        for specs, crate, file, names in PARTS.findall(block[0]):
            for name in filter(None, (it.strip() for it in names.split(","))):
                is_one = definitions(crate).get(name.split(" as ")[0]) == 1
                found.add(f"{specs} {name}" if is_one else f"{specs}.{file} {name}")
        return "".join(f"{it}\n" for it in sorted(found))
    return IMPORTS.sub(listed, text)


def without_bodies(code):
    """Rattle code in the layout of rt fmt without the lines between the braces of each function's body."""
    kept, lines = [], iter(code.split("\n"))
    for line in lines:
        kept.append(line)
        head = FUNCTION.match(line)
        if head and opens_body(line, lines, kept, head[1]):
            kept.append(next((it for it in lines if it == f"{head[1]}}}"), ""))
    return "\n".join(kept)


def opens_body(line, lines, kept, indent):
    """Goes on to the end of a function's head. Returns whether a body with lines of its own begins there."""
    depth = 0
    while line is not None:
        depth += line.count("{") - line.count("}")
        if depth == 1 and (line == indent + "{" or re.match(rf"{indent}\S.* {{$", line)):
            return True
        if depth == 0 and (line.endswith(";") or re.match(rf"{indent}\S.*}}$", line)):
            return False
        if (line := next(lines, None)) is not None:
            kept.append(line)
    return False


def digest(parts):
    whole = hashlib.sha256()
    for path, text in parts:
        whole.update(f"{os.path.relpath(path, TOP)}\n{text}\n".encode())
    return whole.hexdigest()[:16]


def digests(crate, below):
    """Both digests of a crate as it is, above these crates."""
    statements = [(it, without_bodies(read(it)) if it.endswith(".rt") else read(it)) for name in sorted(below) for it in files(name, "src", "specs")]
    own = [(it, with_imports_by_crate(read(it))) for it in files(crate, "src", "specs", "wrong")]
    return {"own": digest(own), "below": digest((it, with_imports_by_crate(text)) for it, text in statements)}


def path_of(crate):
    return f"{TOP}/crates/{crate}/wrong/stamp"


def stale(crate, below):
    """Which of a crate's two digests are not as its stamp has them."""
    found = {}
    if os.path.exists(path_of(crate)):
        with open(path_of(crate), encoding="utf-8") as file:
            found = dict(line.split() for line in file if not line.startswith("#"))
    return [name for name, now in digests(crate, below).items() if found.get(name) != now]


def write(crate, both):
    with open(path_of(crate), "w", encoding="utf-8") as file:
        file.writelines(f"{line}\n" for line in (ABOUT, *(f"{name} {it}" for name, it in both.items())))
