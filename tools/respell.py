#!/usr/bin/env python3
"""Respells this repository's own definitions and lemmas as the library spells its words: in snake case.

usage: python3 tools/respell.py [FOLDER]        once, after port.py, at the top of a checkout (or in FOLDER)

A definition `availLeft` becomes `avail_left`, a lemma `inter-is` becomes `inter_is`. A dash stays where it joins
the name of a definition to another (`length-with_block`) and beside an operator (`is-*`). A lemma that would get
the name of a definition gets `_lem`. Names of src/ are left alone, and so are names that Rattle makes for proofs.
It turns .antt files, and the clauses and imports of .rt files, and prints each name with its new one.
"""
import collections
import os
import re
import sys

TOKEN = re.compile(r'--(?=[ \n]|$)[^\n]*|//[^\n]*|"(?:[^"\\\n]|\\.)*"|[^\s(){}.;,@"«»\[\]\\]+')
NAME = r"[^\s(){}.;,@\"«»\[\]\\]+"
DECLARED = re.compile(r"^ *(?:(?:abbrev|unfoldable|pub) )*(" + NAME + r")(?: (?:\{[^}]*\}|\([^)]*\)))* ?:(?: |$)")
OPERATOR = re.compile(r"[*+≤<≡∷·ℤ]|--|^-|-$")


def snake(word):
    word = re.sub(r"([a-z0-9'])([A-Z])", r"\1_\2", word)
    return re.sub(r"([A-Z])([A-Z][a-z])", r"\1_\2", word).lower()


def is_camel(word):
    return word[:1].islower() and re.search(r"[a-z0-9][A-Z]", word)


def turned(name):
    parts = name.split("-")
    if OPERATOR.search(name):
        return name if not any(map(is_camel, parts)) or name.startswith("≤") else "-".join(snake(it) if is_camel(it) else it for it in parts)
    joins = len(parts) > 1 and any(map(is_camel, parts))
    return ("-" if joins else "_").join(snake(it) if is_camel(it) else it for it in parts)


def files(root, endings):
    for folder, folders, names in os.walk(os.path.join(root, "crates")):
        folders[:] = sorted(it for it in folders if it != "out")
        for name in sorted(names):
            if name.endswith(endings):
                yield os.path.join(folder, name)


def read(path):
    with open(path, encoding="utf-8", newline="") as it:
        return it.read()


def declared(text):
    """The names that a file declares, and which of them are fields."""
    names, fields, within = {}, set(), None
    for line in text.split("\n"):
        depth = len(line) - len(line.lstrip(" "))
        if line.strip() and within is not None and depth <= within:
            within = None
        if line.startswith(("use ", "--")):
            continue
        head = re.match(r"^ *(?:abbrev |pub )*(record|data) (?:pub )?" + NAME, line)
        if head:
            within = depth
            continue
        found = DECLARED.match(line)
        if found and found.group(1) not in ("let", "in", "_"):
            names[found.group(1)] = line
            if within is not None:
                fields.add(found.group(1))
    return names, fields


def of_a_function(path):
    return os.path.basename(path) == "Proof.antt"


def table(root):
    """New names by old, of the whole repository, and the names that are fields."""
    shared, fields, specs = set(), set(), set()
    for path in files(root, ".antt"):
        if of_a_function(path):
            continue
        names, those = declared(read(path))
        shared |= names.keys()
        fields |= those
        if "/specs/" in path:
            specs |= names.keys()
    # These two pairs would fall together: the definition keeps the word.
    out = {"sumsBy": "sums_by", "sums_by": "sums_by_lem", "lastPlace": "last_place", "last-place": "last_place_lem"}
    out = {it: new for it, new in out.items() if it in shared}
    taken = {it for it in shared if turned(it) == it} | {turned(it) for it in shared if is_camel(it) and it in specs}
    for name in sorted(shared, key=lambda it: (it not in specs, it)):
        new = turned(name)
        if new == name or name in out:
            continue
        if name not in specs and new in taken:
            new += "_lem"
        out[name] = new
    return out, fields


def turn(text, names, fields):
    def one(found):
        word = found.group()
        if word.startswith(("-- ", "//", '"')) or word == "--":
            return word
        after_dot = found.start() and text[found.start() - 1] == "." and not re.match(r"\. ", text[found.start() - 1 : found.start() + 1])
        if after_dot and word not in fields and word in names:
            # after a module's name, not after a value's
            before = re.search(r"([A-Z]\w*)\.$", text[: found.start()])
            if not before:
                return word
        return names.get(word, word)

    return TOKEN.sub(one, text)


def turn_rt(text, names, fields):
    """The clauses and imports of a source file: text in braces after requires, ensures or a ghost name, and ghost use lines."""
    out, at = [], 0
    for found in re.finditer(r"ghost use [^;]*;|(?:requires|ensures|ghost)\*?(?: \w+)?:? ?\{", text):
        if found.start() < at:
            continue
        out.append(text[at : found.start()])
        end = found.end()
        if found.group().endswith("{"):
            depth = 1
            while depth:
                depth += {"{": 1, "}": -1}.get(text[end], 0)
                end += 1
        out.append(turn(text[found.start() : end], names, fields))
        at = end
    return "".join(out) + text[at:]


def main():
    root = sys.argv[1] if len(sys.argv) > 1 else "."
    names, fields = table(root)
    falls = collections.Counter(names.values())
    for new, n in falls.items():
        if n > 1:
            print("fall together:", new, [it for it in names if names[it] == new])
    for path in files(root, (".antt", ".rt")):
        text = read(path)
        if path.endswith(".antt"):
            here = names
            if of_a_function(path):
                own, _ = declared(text)
                made = {it for it, line in own.items() if re.search(r": *tie\.(Need|Invariant|Loop|Measure)|: \{M : Type 1\}", line) or it.endswith("-spec")}
                here = {it: new for it, new in names.items() if it not in made}
                here |= {it: turned(it) for it in own if it not in made and it not in here}
            new = turn(text, here, fields)
        else:
            new = turn_rt(text, names, fields)
        if new != text:
            with open(path, "w", encoding="utf-8", newline="") as it:
                it.write(new)
    for name in sorted(names):
        print(name, names[name])


main()
