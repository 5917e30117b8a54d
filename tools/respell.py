#!/usr/bin/env python3
"""Brings the repository's own definitions and lemmas to today's spelling, once.

A name that is declared in specs/ or proofs/ of a crate (a definition, a lemma, a record's field, a constructor)
and has dashes is written with underscores; a fact, whose name begins with a capital letter, in camel case
(`Demand-is-greatest` becomes `DemandIsGreatest`). Names that Rattle makes keep their dashes, as do those of std.

    python3 tools/respell.py            respells every .antt and .rt file under crates/
    python3 tools/respell.py --look     changes nothing, and prints what to look at

It was run once, after the kit's port.py, on what port.py had made; see docs/PORT.md.
"""
import collections
import glob
import re
import sys

NAME = re.compile(r"[A-Za-zℕ_][\w'ℕ]*(?:-[\w'ℕ+]+)+")
DECLARED = re.compile(
    r"^\s*(?:(?:abbrev|unfoldable|pub|data|record)\s+)*([^\s:(){}.,;=]+)\s*(?:[({][^=]*[)}]\s*)*:\s"
)


def files():
    found = []
    for kind in ("specs/**/*.antt", "proofs/**/*.antt", "src/**/*.rt"):
        found += glob.glob(f"crates/*/{kind}", recursive=True)
    return sorted(found)


def own_crates():
    return [line.split(":")[0].split()[0] for line in open("crates.txt") if line.strip() and not line.startswith("#")]


def comment_from(line, path):
    """Where the line's comment begins."""
    mark = "--" if path.endswith(".antt") else "//"
    at = re.search(r"(^|\s)" + mark, line)
    return at.start() if at else len(line)


def declared():
    """The names with dashes that the repository declares, without those of goals."""
    names = collections.defaultdict(list)
    for path in files():
        if not path.endswith(".antt"):
            continue
        for line in open(path):
            found = DECLARED.match(line)
            if found and "-" in found.group(1) and not line.lstrip().startswith("--") and ": goal." not in line:
                names[found.group(1)].append(path)
    return names


def today(name):
    if name[0].isupper():
        return "".join(part[0].upper() + part[1:] for part in name.split("-"))
    return name.replace("-", "_")


def foreign(text, crates):
    """The names that a file imports from modules that are not the repository's, or of goals."""
    names = set()
    for module, items in re.findall(r"use\s+([^\s{;]+)\.\{([^}]*)\}", text):
        parts = module.split(".")
        own = parts[0] == "Rattle" and len(parts) > 1 and parts[1] in crates and parts[-1] not in ("Goals", "Given")
        if not own:
            names |= {item.split(" as ")[-1].strip() for item in items.split(",")}
    return names


def respell(text, path, names, crates, said):
    skip = foreign(text, crates)
    lines = []
    for number, line in enumerate(text.split("\n"), 1):
        end = comment_from(line, path)
        for word in NAME.findall(line[end:]):
            if word in names:
                said.append(f"comment: {path}:{number}: {word}")

        def turn(found):
            name = found.group(0)
            before = line[: found.start()]
            if name not in names or name in skip or (before and re.search(r"[\w'·-]$", before)):
                return name
            made = path.endswith(("/Answers.antt", "/Invariants.antt"))
            if made and re.search(r"(^|[^\w'])(goal|c|w|l)\.$", before):
                said.append(f"made by Rattle: {path}:{number}: {name}")
                return name
            return today(name)

        lines.append(NAME.sub(turn, line[:end]) + line[end:])
    return "\n".join(lines)


def main():
    look = "--look" in sys.argv[1:]
    crates = own_crates()
    names = declared()
    said = []
    every = collections.defaultdict(set)
    for path in files():
        for word in re.findall(r"[A-Za-zℕ_][\w'ℕ]*", open(path).read()):
            every[word].add(path)
    meets = collections.defaultdict(set)
    for name in names:
        meets[today(name)].add(name)
    for new, olds in sorted(meets.items()):
        if len(olds) > 1:
            said.append(f"fall together: {new}: {', '.join(sorted(olds))}")
        for path in sorted(every.get(new, ())):
            text = open(path).read()
            if any(old in NAME.findall(text) for old in olds):
                said.append(f"stands already: {path}: {new}")
    for path in files():
        text = open(path).read()
        after = respell(text, path, names, crates, said)
        if after != text and not look:
            open(path, "w").write(after)
    print("\n".join(said))
    print(f"{len(names)} names")


main()
