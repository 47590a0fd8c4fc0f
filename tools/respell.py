#!/usr/bin/env python3
"""Brings the repository's own names to the spelling of today's Rattle, once, behind its port.py.

usage: python3 tools/respell.py [--show]      at the top of the repository; --show only prints the names that change

A word of a definition, a field or a lemma is in snake case (`mostDoses` is `most_doses`, `class-open` is `class_open`). A dash stays behind a
fact or a definition (`All-append`, `open_fans-union`), where it joins two names. A lemma that would have the name of a definition or a
function gets `_lem`. Functions of src/, exported names, strings, inputs and outputs keep their names.
"""

import os
import re
import sys

TOKEN = re.compile(r"[^\s(){}\[\].,;«»λ`\"']+(?:'+(?=[\s(){}\[\].,;]|$))?")
CAMEL = re.compile(r"(?<=[a-z0-9])([A-Z])")
SIGNATURE = re.compile(r"^\s*(?:pub |abbrev |unfoldable |let )*([^\s(){}:;,.]+)\s*(?::\s|:$|=\s)")

# Lemmas that the port had respelled, and that fall together with a definition now.
FELL = ["all_in", "every_set", "same_answer", "same_class", "same_point", "slots_read"]


def files(root, *ends):
    for folder, dirs, names in os.walk(os.path.join(root, "crates")):
        dirs[:] = sorted(d for d in dirs if d != "out")
        for name in sorted(names):
            if name.endswith(ends):
                yield os.path.join(folder, name)


def read(path):
    with open(path, encoding="utf-8") as f:
        return f.read()


def snake(name):
    return CAMEL.sub(lambda m: "_" + m.group(1).lower(), name)


def mapping(root):
    """The old name and the new one of each name that changes."""
    seen, lemmas, functions = set(), set(), set()
    for path in files(root, ".antt"):
        text = read(path)
        seen.update(TOKEN.findall(text))
        if not path.endswith("/Proof.antt"):
            for line in text.splitlines():
                found = SIGNATURE.match(line)
                if found and "-" in found.group(1):
                    lemmas.add(found.group(1))
    for path in files(root, ".rt"):
        text = read(path)
        functions.update(re.findall(r"\bfn (\w+)", text))
        seen.update(w for w in re.findall(r"\w+", text) if re.match(r"[a-z]\w*[a-z0-9][A-Z]", w))
    new = {}
    for name in sorted(seen):
        if re.match(r"[a-z][\w']*$", name) and CAMEL.search(name):
            new[name] = snake(name)
    definitions = set(new.values())
    taken = seen | definitions | functions
    for name in FELL:
        new[name] = name + "_lem"
    for name in sorted(lemmas):
        first, rest = name.split("-", 1)
        if re.match(r"-|[^A-Za-z]", name) or not rest:
            continue
        if first[0].isupper() or CAMEL.search(first):
            turned = snake(first) + "-" + rest.replace("-", "_")
        else:
            turned = name.replace("-", "_")
        if turned == name:
            continue
        if turned in taken:
            turned += "_lem"
        if turned in taken:
            raise SystemExit(f"{name} and another name would both be {turned}")
        new[name] = turned
        taken.add(turned)
    return new


def respell(text, new):
    return TOKEN.sub(lambda m: new.get(m.group(0), m.group(0)), text)


def respell_code(text, new):
    """A .rt file: strings stay, names of clauses and comments turn."""
    parts = re.split(r'("(?:[^"\\\n]|\\.)*")', text)
    words = re.compile(r"[A-Za-z_][\w'-]*\w|\w")
    turned = {k: v for k, v in new.items() if CAMEL.search(k)}
    return "".join(p if i % 2 else words.sub(lambda m: turned.get(m.group(0), m.group(0)), p) for i, p in enumerate(parts))


def main(argv):
    root = os.getcwd()
    new = mapping(root)
    if "--show" in argv:
        for name in sorted(new):
            print(name, new[name])
        return
    for path in files(root, ".antt", ".rt", ".edit"):
        old = read(path)
        text = respell_code(old, new) if path.endswith(".rt") else respell(old, new)
        if text != old:
            with open(path, "w", encoding="utf-8") as f:
                f.write(text)


if __name__ == "__main__":
    main(sys.argv[1:])
