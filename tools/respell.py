#!/usr/bin/env python3
"""Spells the repository's own definitions, fields and lemmas as today's Rattle does: words joined by `_`.

usage: python3 tools/respell.py [--list]        at the top of the repository, once, after port.py

Turned are the names that a file of crates/*/specs or of crates/*/proofs (not of a folder below proofs/) declares:
a camel case name that begins in lower case, and a name with dashes. Types and facts keep their capitals. They turn in
clauses, `ghost use` lines, specs, proofs and must-fail edits; in comments, camel case names and what stands in backquotes.
Left as they are: names that src/ declares, and all that stands in src/ outside clauses.
Where two names would fall together in a file, the one with dashes, a lemma or a row, gets `_lem`.
--list prints the table, old and new, and writes nothing.
"""
import collections
import glob
import os
import re
import sys

WORD = re.compile(r"[^\s(){}.;,@\"«»`\[\]]+")
FIELDS_OF_SRC = {"linkSteel", "stressFactor", "webFactor", "depthLimit"}
# Spelled alike by port.py already: a lemma beside the definition of that name.
BESIDE = {"by_span": ("crates/deflection/proofs/Bounds.antt", "by_span_lem")}
LEMMAS = {"in-range": "in_range_lem", "kind-at": "kind_at_lem", "mark-of": "mark_of_lem"}
# Beside the field tension_most of AcceptedBeam.
LEMMAS["tensionMost"] = "most_tension"


def texts(*patterns):
    for pattern in patterns:
        for path in sorted(glob.glob(pattern, recursive=True)):
            if "/out/" not in path:
                yield path


def declared(path):
    """The names that a file declares, each with whether it is a field."""
    inside = False
    for line in open(path, encoding="utf-8"):
        if re.match(r"\s*--", line):
            continue
        top = re.match(r"^(?:(?:abbrev|unfoldable|pub) )*([^\s:(){}]+) :(?:\s|$)", line)
        if top:
            inside = False
            yield top.group(1), False
            continue
        block = re.match(r"^(?:pub )?(?:record|data) (\S+)", line)
        if block:
            inside = True
            yield block.group(1), False
            continue
        inner = re.match(r"^\s+(?:(?:abbrev|unfoldable|pub) )*([^\s:(){}=]+) : ", line)
        if inner:
            yield inner.group(1), inside
        elif line.strip() and not line[0].isspace():
            inside = False


def snake(name):
    name = name.replace("-", "_")
    if name[0].isupper():
        return name
    return re.sub(r"(?<=[a-z0-9₀-₉])([A-Z])", lambda m: "_" + m.group(1).lower(), name)


def table():
    fields, names = set(), set()
    for path in texts("crates/*/specs/*.antt", "crates/*/proofs/*.antt"):
        for name, field in declared(path):
            camel = name[0].islower() and re.search(r"[a-z0-9₀-₉][A-Z]", name)
            if name != "linkSteel" and (camel or re.search(r"\w-\w", name)):
                names.add(name)
                if field:
                    fields.add(name)
    turned = {name: LEMMAS.get(name, snake(name)) for name in names}
    words = {}
    for path in texts("crates/*/specs/*.antt", "crates/*/proofs/**/*.antt"):
        words[path] = set(WORD.findall(open(path, encoding="utf-8").read()))
    alike = collections.defaultdict(list)
    for name, new in turned.items():
        alike[new].append(name)
    for new, olds in alike.items():
        if len(olds) > 1 and any(sum(old in found for old in olds) > 1 for found in words.values()):
            for old in olds:
                if "-" in old:
                    turned[old] = new + "_lem"
    return turned, fields


def turn(text, turned, fields, path):
    """The code of an antt text, or of a clause, with its names turned."""
    beside = {old: new for old, (file, new) in BESIDE.items() if path == file}

    def word(match):
        old, at = match.group(0), match.start()
        behind = at > 0 and text[at - 1] == "."
        if old in beside and not behind:
            return beside[old]
        if old not in turned:
            return old
        if old in FIELDS_OF_SRC and (behind or re.match(r" = ", text[match.end() :]) and text[:at].rstrip(" ")[-1:] in ("\n", "{", ";")):
            start = text.rfind("\n", 0, at) + 1
            if behind or at > start:
                return old
        if behind and old not in fields:
            head = re.search(r"[^\s(){};,@\"«»`\[\]]*$", text[:at]).group(0)
            if not head.startswith("Rattle."):
                return old
        return turned[old]

    return WORD.sub(word, text)


def comment(text, turned):
    """A comment: camel case names, and what stands in backquotes."""
    camel = lambda m: turned.get(m.group(0), m.group(0)) if "-" not in m.group(0) and m.group(0) not in FIELDS_OF_SRC else m.group(0)
    text = WORD.sub(camel, text)
    return re.sub(r"`[^`\n]*`", lambda m: WORD.sub(lambda w: turned.get(w.group(0), w.group(0)), m.group(0)), text)


def antt(text, turned, fields, path):
    parts = re.split(r"((?:(?<=\s)|^)--[^\n]*)", text, flags=re.M)
    marks = [p if i % 2 == 0 else "\0" + "%d" % i + "\0" for i, p in enumerate(parts)]
    code = turn("".join(marks), turned, fields, path)
    for i in range(1, len(parts), 2):
        code = code.replace("\0" + "%d" % i + "\0", comment(parts[i], turned))
    return code


CLAUSE = re.compile(r"(?<![\w/])(?:requires|ensures|ghost)\s*\*?\s*(?:\w+\s*(?::\s*)?(?:=\s*)?)?\{")
GHOST_USE = re.compile(r"ghost use [^;]*;")


def rust(text, turned, fields, path):
    out, at = [], 0
    for line in text.splitlines(keepends=True):
        note = re.search(r"//[^\n]*", line)
        if GHOST_USE.search(line):
            line = turn(line, turned, fields, path)
        elif note:
            line = line[: note.start()] + comment(note.group(0), turned) + line[note.end() :]
        out.append(line)
    text, out = "".join(out), []
    while True:
        found = CLAUSE.search(text, at)
        if not found:
            return "".join(out) + text[at:]
        depth, end = 1, found.end()
        while depth:
            depth += {"{": 1, "}": -1}.get(text[end], 0)
            end += 1
        out += [text[at : found.end()], turn(text[found.end() : end], turned, fields, path)]
        at = end


def main():
    turned, fields = table()
    if "--list" in sys.argv:
        for old in sorted(turned):
            print(f"{old}\t{turned[old]}")
        return
    count = 0
    for path in texts("crates/*/specs/*.antt", "crates/*/proofs/**/*.antt", "crates/*/src/*.rt"):
        old = open(path, encoding="utf-8").read()
        new = rust(old, turned, fields, path) if path.endswith(".rt") else antt(old, turned, fields, path)
        if new != old:
            open(path, "w", encoding="utf-8").write(new)
            count += 1
    print(f"respell: {len(turned)} names, {count} files")


if __name__ == "__main__":
    os.chdir(os.path.join(os.path.dirname(os.path.abspath(__file__)), ".."))
    main()
