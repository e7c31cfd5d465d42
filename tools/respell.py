#!/usr/bin/env python3
"""Brings the repository's own definitions and lemmas to the spelling of names that Rattle's library has: what is no type, no module and no name of the source is in
snake case, and a dash stands only after a type's name. Run once, after the kit's port.py, at the top of the repository.

usage: tools/respell.py [--dry]     --dry: prints the names and those that fall together, and writes nothing
"""

import collections
import os
import re
import sys

MARKS = r"(?:(?:pattern|unfoldable|abbrev|pub|axiom) )*"
TYPE = re.compile(rf"^\s*{MARKS}(?:data|record) (\S+)")
SIGNATURE = re.compile(rf"^(\s*){MARKS}([^\s(){{}}.,;:]+(?: [^\s(){{}}.,;:]+)*?)(?: \{{[^}}:]*\}})? : (.*)$")
TOKEN = re.compile(r"[^\s(){}.,;:\[\]\"`|⌜⌝]+")
KEYWORDS = {"let", "in", "use", "module", "open", "elim", "record", "where"}
# Words of the library that a lemma's new name would be.
TAKEN = {"bit_and", "bit_or"}
# Private lemmas of one file that would fall together with a definition that the file uses.
IN_FILE = {
    "theorems/proofs/SingleHolder.antt": {"is_member": "is_member_lem"},
    "pankvisolo/proofs/Continuing.antt": {"cut_off": "cut_off_lem"},
    "recovery/proofs/InstallBatch.antt": {"no_place": "no_place_lem"},
    "judging/proofs/Candidates.antt": {"no_target": "no_target_lem"},
}


def files(top, endings):
    for folder, dirs, names in os.walk(top):
        dirs[:] = sorted(d for d in dirs if d not in ("out", ".git", "target"))
        for name in sorted(names):
            if name.endswith(endings):
                yield os.path.join(folder, name)


def text_of(path):
    with open(path, encoding="utf-8") as f:
        return f.read()


def is_shared(path):
    """A file of definitions or lemmas, and not a function's own proof."""
    part = os.path.relpath(path, "crates").split(os.sep)
    return part[1] == "specs" or (part[1] == "proofs" and len(part) == 3)


def declared(text):
    """The names that a file of definitions declares, each with its type."""
    lines = text.split("\n")
    record = None
    for i, line in enumerate(lines):
        if not line.strip() or line.lstrip().startswith("--"):
            continue
        indent = len(line) - len(line.lstrip())
        if record is not None and indent <= record:
            record = None
        if TYPE.match(line):
            if re.match(rf"^\s*{MARKS}record ", line):
                record = indent
            continue
        m = SIGNATURE.match(line)
        if not m:
            continue
        names = m.group(2).split()
        if names[0] in KEYWORDS:
            continue
        said = m.group(3)
        j = i + 1
        while j < len(lines) and lines[j].startswith(m.group(1) + "    ") and lines[j].strip():
            said += " " + lines[j].strip()
            j += 1
        for name in names:
            yield name, said, record is not None


def gives_type(said):
    return re.search(r"(^|→ |\) )Type( \d+| ℓ| \([^)]*\))?$", re.sub(r"\s*--.*$", "", said).strip()) is not None


def snake(name):
    name = re.sub(r"([a-z0-9])([A-Z])", r"\1_\2", name)
    return name.lower() if re.search(r"[A-Z]", name) else name


def main():
    dry = "--dry" in sys.argv[1:]
    os.chdir(os.path.join(os.path.dirname(os.path.realpath(__file__)), ".."))
    shared = [p for p in files("crates", (".antt",)) if is_shared(p)]
    types, functions, fields = set(), set(), set()
    for path in shared:
        text = text_of(path)
        types.update(m.group(1) for m in map(TYPE.match, text.split("\n")) if m)
        for name, said, is_field in declared(text):
            if gives_type(said) or (name[0].isupper() and "-" not in name):
                types.add(name)
            else:
                (fields if is_field else functions).add(name)

    names = {}
    for name in (functions | fields) - types:
        if not re.fullmatch(r"[A-Za-z][A-Za-z0-9_'₀-₉\-]*", name) or len(name) == 1:
            continue
        head, *rest = name.split("-")
        new = head + "-" + "_".join(map(snake, rest)) if rest and head in types else "_".join(map(snake, [head, *rest]))
        if new != name:
            names[name] = new
    # a lemma that would have its function's name ends in `_lem`
    for old, new in list(names.items()):
        if "-" in old and old in functions and (new in functions or new in TAKEN or any(o != old and n == new and o in functions for o, n in names.items())):
            names[old] = new + "_lem"
    taken = collections.defaultdict(set)
    for old, new in names.items():
        taken[new].add(old)
    for new, olds in sorted(taken.items()):
        if len(olds & functions) > 1 or len(olds) > 1 and "-" in new:
            print("two become one:", new, sorted(olds))
    clashes = collections.defaultdict(list)
    for path in list(files("crates", (".antt", ".rt"))):
        text = re.sub(r"(--|//).*", "", text_of(path))
        tokens = set(TOKEN.findall(text))
        for t in tokens & names.keys():
            if names[t] in tokens and names[t] not in IN_FILE.get(os.path.relpath(path, "crates"), {}):
                clashes[(t, names[t])].append(os.path.relpath(path, "crates"))
    for (t, n), where in sorted(clashes.items()):
        print("falls together:", t, n, where)
    print(len(names), "names")
    if dry:
        for old, new in sorted(names.items()):
            print(f"  {old} {new}")
        return
    for path in files("crates", (".antt", ".rt", ".edit")):
        text = text_of(path)
        here = IN_FILE.get(os.path.relpath(path, "crates"), {})
        new = TOKEN.sub(lambda m: here.get(m.group(0)) or names.get(m.group(0), m.group(0)), text)
        if new != text:
            with open(path, "w", encoding="utf-8") as f:
                f.write(new)
    # in the documents, only what can be no English word
    for path in [*files("docs", (".md",)), "README.md"]:
        text = text_of(path)
        new = re.sub(r"(?<![\w./-])[a-z]+[a-z0-9]*(?:[A-Z][A-Za-z0-9]*)+(?![\w/])", lambda m: names.get(m.group(0), m.group(0)), text)
        if new != text:
            with open(path, "w", encoding="utf-8") as f:
                f.write(new)


main()
