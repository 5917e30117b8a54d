#!/usr/bin/env python3
"""Counts the places in src/ that an older form of the language may have left.

    python3 tools/places.py [--at COMMIT] [POINT..]

For each point of docs/DESIGN-PASS.md it prints what its search finds, and how many. A line that is found is a place to look at,
and not yet a place to change. Without COMMIT the files are read as they stand.
"""
import collections
import re
import subprocess
import sys

CLAUSE = re.compile(r"^\s*(requires|ensures)\b(?: \w+)? \{ (.*) \}$")


def files(commit):
    """The path and the text of each source file, of the work tree or of a commit."""
    if commit:
        names = subprocess.run(["git", "ls-tree", "-r", "--name-only", commit, "crates"],
                               capture_output=True, text=True, check=True).stdout.split()
    else:
        names = subprocess.run(["git", "ls-files", "crates"], capture_output=True, text=True, check=True).stdout.split()
    for name in sorted(names):
        if "/src/" in name and name.endswith(".rt"):
            if commit:
                yield name, subprocess.run(["git", "show", f"{commit}:{name}"], capture_output=True, text=True, check=True).stdout
            else:
                with open(name) as f:
                    yield name, f.read()


def lines(all_files, pattern, but=None):
    """The lines that match one pattern and not the other."""
    for name, text in all_files:
        for number, line in enumerate(text.splitlines(), 1):
            if re.search(pattern, line) and not (but and re.search(but, line)) and not line.lstrip().startswith("//"):
                yield f"{name}:{number}: {line.strip()}"


def functions(all_files):
    """Each function with a body: its place, its name, and its text without clauses and comments."""
    for name, text in all_files:
        rows = text.splitlines()
        for number, row in enumerate(rows):
            start = re.match(r"^( *)(pub(\(\w+\))? )?(final )?fn (\w+)", row)
            if not start:
                continue
            body = []
            for line in rows[number:]:
                if not CLAUSE.match(line) and not line.lstrip().startswith("//"):
                    body.append(line)
                if line.rstrip() in (start[1] + "}", start[1] + "{}") or line.rstrip().endswith(";") and len(body) == 1:
                    break
            yield f"{name}:{number + 1}: fn {start[5]}", "\n".join(body)


def shape(body):
    """What is left of a function when its names, numbers and texts are taken away."""
    body = re.sub(r'b?"[^"]*"', "s", body)
    words = {"if", "else", "match", "for", "in", "while", "let", "mut", "return", "fn", "loop", "break", "Some", "None", "Ok", "Err"}
    body = re.sub(r"\b[A-Za-z_]\w*\b", lambda m: m[0] if m[0] in words else "x", body)
    body = re.sub(r"\b\d[\w]*\b", "0", body)
    body = re.sub(r"\b(x|s|0|None)(,\s*\b(x|s|0|None)\b)*", "x", body)
    return re.sub(r"\s+", "", body)


def twins(all_files):
    """Functions of at least four lines of body that have one shape, each group after its count."""
    groups = collections.defaultdict(list)
    for place, body in functions(all_files):
        if body.count("\n") >= 5:
            groups[shape(body)].append(place)
    for places in groups.values():
        if len(places) > 1:
            yield from (f"{len(places)} of one shape: {p}" for p in places)


def clauses(all_files):
    """Clauses that stand three times or more."""
    seen = collections.defaultdict(list)
    for name, text in all_files:
        for number, line in enumerate(text.splitlines(), 1):
            found = CLAUSE.match(line)
            if found:
                seen[found[1] + " { " + found[2] + " }"].append(f"{name}:{number}")
    for clause, places in seen.items():
        if len(places) >= 3:
            yield from (f"{place}: {clause}" for place in places)


def travellers(all_files):
    """Three parameters with their types that go together through three functions or more of a crate."""
    seen = collections.defaultdict(set)
    for place, body in functions(all_files):
        head = body.split("{")[0]
        crate = place.split("/")[1]
        parameters = re.findall(r"(\w+: [&\w][^,()]*)", head.split("(", 1)[1]) if "(" in head else []
        names = sorted({re.sub(r"&mut |&|'\w+ ", "", p).strip() for p in parameters})
        for a in range(len(names)):
            for b in range(a + 1, len(names)):
                for c in range(b + 1, len(names)):
                    seen[crate, names[a], names[b], names[c]].add(place)
    found = {place for places in seen.values() if len(places) >= 3 for place in places}
    yield from sorted(found)


POINTS = {
    "1": ("flags beside a value, functions that answer a number for a case, tests of such a number", lambda f: [
        *lines(f, r"^\s+(pub(\(\w+\))? )?\w+: bool,"),
        *lines(f, r"fn (value_of|depth|number|\w+_number|kind_tag|kind_fields)\b.*-> (Result<)?(u8|usize)"),
        *lines(f, r"(=> 0,|Ok\(0\)|== 255|>= 16\b)"),
        *lines(f, r"\belse if \w+ == \w+::[A-Z]+|^\s+if \w+ == \w+::[A-Z]+"),
    ]),
    "2": ("functions of one shape", lambda f: list(twins(f))),
    "3": ("loops that count, or that a count ends", lambda f: list(lines(
        f, r"\bwhile |\bloop \{|\bfor \w+ in [^{]*\.\.|\.enumerate\(\)", r"for _ in 0\.\.(\d|times)"))),
    "4": ("comparisons, conversions, defaults and printing by hand", lambda f: [
        *lines(f, r"fn (before|eq|cmp|partial_cmp|clone|made|kept|depth|with_split|least)\b"),
        *lines(f, r"^    pub fn new\(.*(-> Result|$)"),
        *lines(f, r'=> "|let number = \w+\.number\(\)|let (task|piece|instant) = miss\.'),
        *lines(f, r"^\s+name: 0,"),
    ]),
    "5": ("clauses that stand three times, parameters that go together", lambda f: [*clauses(f), *travellers(f)]),
    "6": ("lengths beside buffers, arrays with a length", lambda f: list(lines(
        f, r"^\s+(pub(\(\w+\))? )?(len|size|count): usize|^\s+(pub(\(\w+\))? )?\w+: \[\w+; ?\w+\]"))),
    "7": ("switches on which step to run, tables of functions", lambda f: list(lines(
        f, r"\bdyn |\bfn\(\w|enum Run\b|match (run|step|mode)\b"))),
}


def main(words):
    commit = None
    if words[:1] == ["--at"]:
        commit, words = words[1], words[2:]
    found = list(files(commit))
    for point in words or POINTS:
        title, search = POINTS[point]
        places = search(found)
        print(f"point {point}, {title}: {len(places)}")
        for place in places:
            print(f"    {place}")


main(sys.argv[1:])
