#!/usr/bin/env python3
"""Counts the places in src/ that read like the older language, point by point, as docs/DESIGN-PASS.md lists them.

    tools/places.py [--list] [FOLDER]

FOLDER is a checkout, this one by default. A row is a pattern, so it finds places to read and not verdicts."""
import collections, os, re, subprocess, sys, tempfile

args = [a for a in sys.argv[1:] if a != "--list"]
show = "--list" in sys.argv
top = args[0] if args else os.path.join(os.path.dirname(os.path.abspath(__file__)), "..")


def sources():
    for folder, dirs, names in os.walk(os.path.join(top, "crates")):
        dirs[:] = sorted(d for d in dirs if d not in ("out", "target"))
        if "/src" in folder[len(top):]:
            for name in sorted(names):
                if name.endswith(".rt"):
                    yield os.path.relpath(os.path.join(folder, name), top)


def is_test(path):
    return "/figures/" in path or "/lines/src/" in path and not path.endswith("lib.rt") or path.endswith("/tests.rt")


def code(path):
    """The file without comments and clauses, and up to its tests."""
    text = open(os.path.join(top, path)).read().split("#[cfg(test)]\nmod tests {")[0]
    lines = [re.sub(r"//.*", "", line) for line in text.split("\n")]
    return [(i + 1, line) for i, line in enumerate(lines) if not re.match(r"\s*(ghost|requires|ensures)\b", line)]


def clauses():
    """Each clause of a contract with its function's place: names of values before and after a call are not told apart."""
    for path in sources():
        if is_test(path):
            continue
        for i, line in enumerate(open(os.path.join(top, path))):
            m = re.match(r"\s*(requires|ensures)\s*(?:\w+\s*)?\{(.*)\}\s*$", line)
            if m:
                clause = re.sub(r"\b(self|floor|register|book|books)\.(old|new|now)\b", "it", m.group(2).strip())
                yield m.group(1) + " " + re.sub(r"\bit\.state\b", "it", clause), f"{path}:{i + 1}"


def pattern(*wanted):
    def find():
        for path in sources():
            if is_test(path):
                continue
            for i, line in code(path):
                if any(re.search(w, line) for w in wanted):
                    yield f"{path}:{i}: {line.strip()}"
    return find


def number_for_nothing():
    for path in sources():
        text = open(os.path.join(top, path)).read()
        for m in re.finditer(r"pub fn (\w+)\(\) -> u8\n", text):
            yield f"{path}: {m.group(1)}"


def duplicates():
    """Pairs of places with six or more lines of one shape, by the tool `duplicates`, over the code without comments and clauses."""
    with tempfile.TemporaryDirectory() as folder:
        for path in sources():
            if is_test(path):
                continue
            target = os.path.join(folder, path.replace("/", "__")[:-3] + ".rs")
            with open(target, "w") as out:
                out.write("\n".join(line for _, line in code(path)))
        out = subprocess.run(["duplicates", "--repo", folder, "--most", "200"], capture_output=True, text=True).stdout
        for line in out.split("\n"):
            if re.match(r"D\d+ ", line) and "boilerplate" not in line:
                yield line.replace("__", "/")


def repeated():
    seen = collections.defaultdict(list)
    for clause, place in clauses():
        seen[clause].append(place)
    for clause, places in sorted(seen.items(), key=lambda x: -len(x[1])):
        if len(places) >= 3:
            yield f"{len(places)} times: {clause}"


POINTS = [
    ("1", "a flag in a struct or a parameter", pattern(r"^\s*(pub(\(crate\))? )?\w+: bool,")),
    ("1", "a change that answers a bool", pattern(r"fn \w+.*&mut self.*-> bool")),
    ("1", "an enum turned into a number, an arm each", pattern(r"::\w+ => \d+,")),
    ("1", "a law's function that answers a number", number_for_nothing),
    ("2", "pairs of places with six lines of one shape", duplicates),
    ("3", "a loop with an index, or with a count", pattern(r"for \w+ in (0|at|1)\.\.", r"while \w+ [<>]", r"\bcount \+= 1;")),
    ("3", "a search by a loop", pattern(r"\.iter\(\)\.enumerate\(\)")),
    ("4", "a text or a number for a value, by a function", pattern(r"fn \w+_(text|line)\(", r"fn number\(self")),
    ("4", "words or bytes compared one after the other", pattern(r"\bsame\(\w+, b\"")),
    ("4", "a record of zeros", pattern(r"^\s*(number|holder|free|currency|ticker): 0,")),
    ("5", "a clause in three or more contracts", repeated),
    ("6", "a length beside a buffer", pattern(r"\blen: usize\b", r"\bfrom: usize\b")),
    ("7", "a match that picks the types of one call", pattern(r"^\s*match \((session|side), side\)|^\s*match options\.\w+ \{|^\s*match shown \{")),
]

for point, what, find in POINTS:
    found = list(find())
    print(f"{point}  {len(found):3}  {what}")
    if show:
        for place in found:
            print("         ", place)
