#!/usr/bin/env python3
"""Brings the repository's own definitions and lemmas to the spelling of today's Rattle.

usage: tools/respell.py [--list]      at the top of a repository that port.py has just turned; --list prints the table and writes nothing

Words are in snake case and types in camel case; a dash stays only between two names, as in `every-append`, and before a plain word it becomes `_`.
Functions of src/, exported names, strings, inputs and outputs keep their names. It goes by whole words, in all .antt files, in the clauses and comments
of .rt files, and in the words that pages give between backticks. It was run once.
"""

import os
import re
import subprocess
import sys

# the kit's folder, which `rt doc` names a page of
KIT = os.path.dirname(subprocess.run(["rt", "doc"], stdout=subprocess.PIPE, text=True, check=True).stdout.strip())
# lemmas that had a definition's name but for the spelling, and the files that name them
LEMMAS = [
    ("digit_at", ["judge/proofs/Sums.antt"]),
    ("in_order", ["text_values/proofs/read_values/Proof.antt"]),
    ("round_number", ["exports/proofs/Steps.antt", "exports/proofs/Moves.antt"]),
    ("same_number", ["protocol/proofs/Examples.antt"]),
    ("same_spot", ["text_lines/proofs/Values.antt", "text_lines/proofs/Follow.antt", "text_lines/proofs/lines/value_at/Proof.antt", "text_values/proofs/Orders.antt"]),
]
WORD = re.compile(r"[^\s(){}\[\];,.\"`⟨⟩«»@:=|\\]+")
DECLARED = re.compile(r"^(\s*)((?:abbrev |pub |unfoldable )*)([^\s:(){}\[\]]+)(?: \{[^}]*\})*\s:(?:\s|$)(.*)$")
TYPES = re.compile(r"^\s*(?:abbrev |pub )*(?:record|data)(?: pub)? (\S+)")


def files(top, endings):
    for folder, inner, names in os.walk(top):
        inner[:] = sorted(f for f in inner if f not in ("out", ".git", "target"))
        for name in sorted(names):
            if name.endswith(endings):
                yield os.path.join(folder, name)


def read(path):
    with open(path, encoding="utf-8") as f:
        return f.read()


def declared(text):
    """The names that a file declares with a signature: name, is it an answer that Rattle asks for, is it a definition or a field."""
    lines = text.split("\n")
    field = False
    for at, line in enumerate(lines):
        if line.strip().startswith("--"):
            continue
        m = TYPES.match(line)
        if m:
            field = True
            yield m.group(1), False, True
            continue
        m = DECLARED.match(line)
        if m:
            indent, words, name, kind = m.groups()
            kind = kind or (lines[at + 1].strip() if at + 1 < len(lines) else "")
            if not indent:
                field = False
            yield name, kind.startswith(("tie.", "goal.")), "abbrev" in words or "unfoldable" in words or field


def library_words():
    """Every word that the kit's own proof files declare."""
    words = set()
    for top in ("rattle/std", "rattle/core", "rattle/std_alloc", "rattle/std_io", "rattle/io", "rattle/logic", "rattle/antt", "rattle/mathlib"):
        for path in files(os.path.join(KIT, top), (".antt",)):
            for m in re.finditer(r"(?m)^\s*(?:abbrev |pub |unfoldable |data |record )*([^\s:(){}\[\]]+)\s:(?:\s|$)", read(path)):
                words.add(m.group(1))
    return words


def snake(part):
    if part[:1].isupper() or not re.search(r"[a-z0-9₀-₉][A-Z]", part):
        return part
    return re.sub(r"(?<=[a-z0-9₀-₉])([A-Z])", lambda m: "_" + m.group(1).lower(), part)


def main():
    top = "crates"
    own, answers, definitions = {}, set(), set()
    for path in files(top, (".antt",)):
        local = re.search(r"/proofs/.+/", path)
        for name, answer, definition in declared(read(path)):
            if answer or "/+" in path and not name.endswith("-spec"):
                answers.add(name)
            elif "-" in name or re.search(r"[a-z0-9][A-Z]", name):
                own.setdefault(name, set()).add("proof" if local else "shared")
            if definition:
                definitions.add(name)
    functions = set()
    for path in files(top, (".rt",)):
        functions.update(re.findall(r"\bfn (\w+)", read(path)))
    library = library_words()
    used_after_dot = set()
    for path in files(top, (".antt",)):
        used_after_dot.update(re.findall(r"\.([^\s(){}\[\];,.\"`]+)", read(path)))
    every = {n for p in files(top, (".antt",)) for n, a, d in declared(read(p)) if not a}
    plain = set("at of is to by on in as ok are was no not one two all any each once lent given kept back only other same here there both first second last next more less most least rest"
                " holds gives goes ends fails takes says left right long small large ext comm assoc cancel swap lem spec exit row rows".split())
    names = {snake(d) for d in definitions | functions} | {d for d in definitions} | {"add", "mul", "neg", "sum", "sub", "mod", "div", "append", "length", "take", "drop", "map", "lt", "le"} | {w for w in library if "-" not in w and len(w) > 2}
    names -= plain
    table, kept = {}, []
    for name in sorted(own):
        if name in answers or name in library:
            continue
        if name in definitions:
            parts = snake(name).split("-")
            new = "_".join(snake(p) for p in parts) if not name[:1].isupper() else name
        else:
            parts = [snake(p) for p in name.split("-")]
            if parts[-1] == "spec":
                table[name] = "_".join(parts)
                continue
            new = parts[0]
            for at in range(1, len(parts)):
                # the longest run of parts on each side that is a name
                before = any("_".join(parts[b:at]) in names or "-".join(name.split("-")[b:at]) in names for b in range(at))
                behind = any("_".join(parts[at:e]) in names or "-".join(name.split("-")[at:e]) in names for e in range(at + 1, len(parts) + 1))
                new += ("-" if before and behind and parts[at] not in plain else "_") + parts[at]
        if new != name:
            table[name] = new
    # two names of one file that would be one: a lemma of a definition's name gets `_lem`, a field `_holds`
    words = {}
    for path in files(top, (".antt",)):
        words[path] = set(WORD.findall(read(path)))
    made = {}
    for name, new in table.items():
        made.setdefault(new, []).append(name)
    for name, new in sorted(table.items()):
        alone = all(not (name in w and new in w) for w in words.values())
        if len(made[new]) > 1 and "-" in name or not alone and "-" in name:
            table[name] = new + ("_holds" if name in definitions else "_lem")
        elif not alone:
            print("in one file:", name, new, [p for p, w in words.items() if name in w and new in w], file=sys.stderr)
    # what Rattle makes has dashes too: a word that is also a field of a step stays as it is, unless it is a field of this repository
    fields = definitions
    for name in list(table):
        if "-" in name and name in used_after_dot and name not in fields:
            kept.append(name)
            del table[name]
    made = {}
    for name, new in table.items():
        made.setdefault(new, []).append(name)
    clashes = {new: old for new, old in made.items() if len(old) > 1 or new in every and new not in table}
    for new, old in sorted(clashes.items()):
        print("falls together:", new, "from", old, "(a name here)" if new in every else "", file=sys.stderr)
    for new in sorted(set(made) & library):
        print("a word of the library:", new, "from", made[new], file=sys.stderr)
    for new in sorted(set(made) & functions):
        print("a function of src/:", new, "from", made[new], file=sys.stderr)
    print("kept, since Rattle makes such a name:", kept, file=sys.stderr)
    if sys.argv[1:] == ["--list"]:
        for name, new in sorted(table.items()):
            print(name, new)
        return

    def turn(text):
        return WORD.sub(lambda m: table.get(m.group(0), m.group(0)), text)

    for path in files(top, (".antt", ".rt")):
        text = read(path)
        new = text
        for lemma, places in LEMMAS:
            if os.path.relpath(path, top) in places:
                new = WORD.sub(lambda m: m.group(0) + "_lem" if m.group(0) == lemma else m.group(0), new)
        new = turn(new)
        if new != text:
            with open(path, "w", encoding="utf-8") as f:
                f.write(new)
    pages = [p for p in subprocess.run(["git", "ls-files", "*.md"], capture_output=True, text=True).stdout.split("\n") if p]
    for path in pages:
        text = read(path)
        new = re.sub(r"`[^`\n]+`", lambda m: turn(m.group(0)), text)
        if new != text:
            with open(path, "w", encoding="utf-8") as f:
                f.write(new)


main()
