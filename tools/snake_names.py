#!/usr/bin/env python3
"""Brings the names that specs/ and proofs/ declare to one spelling: words in snake case, types in camel case.

usage: python3 tools/snake_names.py      at the top of the repository, right after the kit's port.py

A name is one that a file of specs/ or proofs/ declares: a definition, a lemma, a record, a constructor, a field.
Answers to goals keep the names that Rattle gives them, and so does everything of src/. The old and the new spelling
of each name that changes are printed. It stops, and writes nothing, where two names would fall together.
"""

import glob
import os
import re
import sys

IDENT = r"[^\s(){};.,λ@\"⌜⌝«»\[\]|:=\\]+"
TOKEN = re.compile(r"[^\s(){};,λ@\"⌜⌝«»\[\]|=\\`]+")
DECLARED = re.compile(r"^\s*(?:abbrev |unfoldable |pub )*(%s(?:\s+%s)*) :(?: (.*))?$" % (IDENT, IDENT))
ALIAS = re.compile(r"\bas (%s)" % IDENT)
HEADED = re.compile(r"^\s*(?:pub |abbrev |unfoldable )*(?:data|record|ruleset)\s+(%s)" % IDENT)


def declared(lines):
    """The names that a file declares, but for its answers to goals."""
    names = set()
    for line in lines:
        if line.strip().startswith("--"):
            continue
        if line.startswith("use "):
            names.update(ALIAS.findall(line))
            continue
        head = HEADED.match(line)
        if head:
            names.add(head.group(1))
            continue
        name = DECLARED.match(line)
        if name and not (name.group(2) or "").startswith("goal."):
            names.update(name.group(1).split())
    return names


def spelt(name):
    """The new spelling of a name."""
    words = name.replace("getD", "get_or").split("-")
    if name[0].isupper():
        return "".join(w[0].upper() + w[1:] for w in words)
    return "_".join(w.lower() for w in words)


def turned(text, names):
    """The text with each name in its new spelling, also as a part of a path."""
    return TOKEN.sub(lambda t: ".".join(names.get(part, part) for part in t.group(0).split(".")), text)


def main():
    if not os.path.isdir("crates"):
        sys.exit("run it at the top of the repository")
    logic = sorted(glob.glob("crates/*/specs/**/*.antt", recursive=True) + glob.glob("crates/*/proofs/**/*.antt", recursive=True))
    texts = {}
    for path in logic + sorted(glob.glob("crates/*/src/**/*.rt", recursive=True) + glob.glob("crates/*/must-fail/*.edit") + glob.glob("docs/*.md") + ["README.md"]):
        with open(path, encoding="utf-8") as file:
            texts[path] = file.read()
    own = set().union(*(declared(texts[path].split("\n")) for path in logic))
    names = {name: spelt(name) for name in own if "-" in name}
    after = [names.get(name, name) for name in own]
    twice = sorted({name for name in after if after.count(name) > 1})
    if twice:
        sys.exit("these names would fall together: " + ", ".join(twice))
    # port.py turned some names itself, and left them as they were in edits and documents
    loose = names | {part: spelt(part) for path in texts for part in re.findall(r"[\w'-]+", texts[path]) if "-" in part and spelt(part) in after}
    for path, text in texts.items():
        if path.endswith(".md"):
            new = re.sub(r"`[^`\n]*`", lambda code: turned(code.group(0), loose), text)
        else:
            new = turned(text, loose if path.endswith(".edit") else names)
        if new != text:
            with open(path, "w", encoding="utf-8") as file:
                file.write(new)
    for name in sorted(names):
        print(name, names[name])


main()
