#!/usr/bin/env python3
"""Brings this repository's own names in contracts, specs and proofs to the spelling that Rattle uses.

Snake case for definitions, lemmas, record fields and local names, upper camel case for facts and types; a definition
beside a function of that name gets `_lem`. Run once at the top of the repository, after the kit's own script; `--list`
only prints what would be renamed. The names of src/ (functions, types, parameters), strings, comments, inputs and
outputs are left alone, and so are the names that Rattle makes (goals, steps) and those of its library.
"""
import collections
import glob
import re
import sys

WORD = re.compile(r"[A-Za-z≤ℤ][A-Za-z0-9_'≤ℤ-]*")
SIGNATURE = re.compile(r"^\s*(?:abbrev |unfoldable )?(?:pub )?(?:abbrev )?(?:record |data )?([^\s:({=]+)(?: *:| [({])")
FIELD = re.compile(r"^  (?:pub )?([^\s:({|]+) :")
GOAL = re.compile(r"^(?:abbrev )?(?:pub )?(\S+) : goal\.\S+$")
DOCS = ["README.md", "docs/RULES.md", "docs/REFUSALS.md", "docs/DECISIONS.md", "docs/PROOFS.md"]


def files():
    for crate in sorted(glob.glob("crates/*")):
        for pattern in ("src/**/*.rt", "specs/**/*.antt", "proofs/**/*.antt"):
            yield from sorted(glob.glob(f"{crate}/{pattern}", recursive=True))


def read(path):
    with open(path, encoding="utf-8") as file:
        return file.read()


def is_import(line):
    return line.lstrip().startswith(("use ", "pub use ", "ghost use ", "mod ", "pub mod ", "--"))


def declared():
    """Own names: those of modules, and those of record fields."""
    names, fields = set(), set()
    for path in files():
        if not path.endswith(".antt"):
            continue
        for line in read(path).splitlines():
            if re.match(r"use Rattle\.(?!std\.)", line):
                names |= set(re.findall(r" as (\S+?)[,}]", line))
            if is_import(line) or GOAL.match(line):
                continue
            found = SIGNATURE.match(line)
            if found and WORD.fullmatch(found.group(1)):
                names.add(found.group(1))
            found = FIELD.match(line)
            if found:
                fields.add(found.group(1))
    return names, fields


def beside_functions():
    """Names that stand in a crate with a function which they would be spelled like."""
    words, functions = collections.defaultdict(set), collections.defaultdict(set)
    for path in files():
        crate, text = path.split("/")[1], read(path)
        words[crate] |= set(WORD.findall(text))
        if path.endswith(".rt"):
            functions[crate] |= set(re.findall(r"\bfn (\w+)", text))
    return {w for crate in words for w in words[crate] if w.replace("-", "_") in functions[crate]}


def spelled(name, beside=frozenset()):
    if not WORD.fullmatch(name) or "-" not in name:
        return name
    if name[0].isupper():
        return "".join(part[:1].upper() + part[1:] for part in name.split("-"))
    return name.replace("-", "_") + ("_lem" if name in beside else "")


def foreign(text, own):
    """What a proof file has from the library or from Rattle's own modules, and the goals that it answers."""
    taken = {found.group(1) for found in map(GOAL.match, text.splitlines()) if found}
    for path, listed in re.findall(r"^use (\S+?)\.\{([^}]*)\}", text, re.M):
        if not path.startswith("Rattle.") or path.split(".")[1] == "std" or "Goals" in path or "Given" in path:
            taken |= {part.split(" as ")[-1].strip() for part in listed.split(",")}
    return taken


def renamed(path, text, turned, names, fields):
    """The text with its free names, and after a dot the fields and the names of an own module, respelled."""
    aliases = set(re.findall(r"^(?:ghost )?use Rattle\.\S+ as (\w+);?$", text, re.M)) - {"goal"}
    taken = foreign(text, names) if path.endswith(".antt") else set()

    def turn(found):
        word, at = found.group(0), found.start()
        if at > 0 and text[at - 1] in ".\"'_":
            before = re.search(r"[^\s({,;]+$", text[: at - 1])
            module = before and (before.group(0).startswith("Rattle.") or before.group(0) in aliases)
            return turned[word] if word in turned and (word in fields or (module and word in names)) else word
        if word in turned and word not in taken:
            return turned[word]
        local = path.endswith(".antt") and word[0].islower() and word not in taken
        return spelled(word) if local and not import_line(text, at) else word

    # comments and strings stay
    pieces = re.split(r"((?:--|//)[^\n]*|\"[^\"\n]*\")" if path.endswith(".rt") else r"((?:^|(?<=\s))--[^\n]*)", text)
    out = []
    for i, text in enumerate(pieces):
        out.append(text if i % 2 else WORD.sub(turn, text))
    return "".join(out)


def import_line(text, at):
    return is_import(text[text.rfind("\n", 0, at) + 1 :])


def main():
    names, fields = declared()
    beside = beside_functions()
    turned = {n: spelled(n, beside) for n in names | fields if spelled(n, beside) != n}
    clash = collections.defaultdict(set)
    for n in names | fields:
        clash[spelled(n, beside)].add(n)
    for new, olds in sorted(clash.items()):
        if len(olds) > 1:
            print("falls together:", new, sorted(olds))
    if "--list" in sys.argv:
        for old, new in sorted(turned.items()):
            print(old, new)
        return
    for path in files():
        text = read(path)
        new = renamed(path, text, turned, names, fields)
        if new != text:
            open(path, "w", encoding="utf-8").write(new)
            print("respelled", path)
    for path in DOCS:
        text = read(path)
        new = re.sub(r"`[^`\n]*`", lambda found: WORD.sub(lambda word: turned.get(word.group(0), word.group(0)), found.group(0)), text)
        if new != text:
            open(path, "w", encoding="utf-8").write(new)
            print("respelled", path)


if __name__ == "__main__":
    main()
