#!/usr/bin/env python3
"""Respells the names that this repository declares in specs/ and proofs/: words in snake case, types and facts in camel case.

usage: python3 tools/respell.py        at the top of the repository, once, after the kit's port.py

A name with a dash becomes one with underscores, or camel case where it is a type. Names of goals, invariants and
measures are the prover's and stay, and so does every name of the library and of src/. It rewrites .antt files, the
clauses of .rt files and what stands in backquotes in README.md and docs/, and stops where two names would fall together.
"""

import os
import re
import sys

WORD = re.compile(r"[^\s(){}\[\].,;:@«»⌜⌝\"`|?!&$#=λ→≡]+")
PROVERS = ("invariant-", "decreases-", "ghost-", "returns", "loop-", "overflow_", "invariant_of")


def sources(ending, root="crates"):
    for folder, inner, names in os.walk(root):
        inner[:] = sorted(d for d in inner if d != "out")
        for name in sorted(names):
            if name.endswith(ending):
                yield os.path.join(folder, name)


HEAD = re.compile(r"(?:(?:pub|abbrev|unfoldable) )*(record|data) (?:pub )?(\S+)")
NAMED = re.compile(r"\s*(?:(?:pub|abbrev|unfoldable) )*(?P<name>[^\s(){}]+) :(?: (?P<type>.*))?$")


def declared(path):
    """The names that a file of specs/ or proofs/ declares, each with what it is: a type, a field of a record, or another."""
    in_record = False
    with open(path, encoding="utf-8") as f:
        for line in f:
            if not line.strip() or line.startswith("--") or line.startswith("use "):
                continue
            head = HEAD.match(line)
            if head:
                in_record = head.group(1) == "record"
                yield head.group(2), "type"
                continue
            if not line.startswith(" "):
                in_record = False
            named = NAMED.match(line)
            if named and not (named.group("type") or "").startswith("goal."):
                name = named.group("name")
                yield name, "type" if name[0].isupper() else "field" if in_record else "word"


def respelled(name, kind):
    if kind == "type":
        return "".join(w[:1].upper() + w[1:] for w in name.split("-"))
    return name.replace("-", "_")


def mapping():
    """Each name with a dash that is declared here and nowhere in the library with its new spelling, the fields among them, and
    those that the kit's scripts have turned, which documents may still tell with a dash."""
    names, fields, told, all_names, foreign = {}, set(), {}, set(), set()
    for path in sources(".antt"):
        for name, kind in declared(path):
            all_names.add(name)
            if "-" in name and not name.startswith(PROVERS):
                names[name] = respelled(name, kind)
                if kind == "field":
                    fields.add(name)
        with open(path, encoding="utf-8") as f:
            for line in f:
                use = re.match(r"use ([\w.]+)\.\{(.*)\}", line)
                if use and not os.path.isdir(os.path.join("crates", (use.group(1).split(".") + [""])[1])):
                    foreign.update(w.strip() for w in use.group(2).split(","))
    for path in sources(".rt"):
        with open(path, encoding="utf-8") as f:
            for line in f:
                if line.lstrip().startswith("ghost use"):
                    names.update((n, respelled(n, "word")) for n in re.findall(r" as ([a-z]\w*-[\w-]+)", line))
    for name in sorted(set(names) & foreign):
        sys.exit(f"respell: {name} is the library's name too")
    for old, new in names.items():
        if new in all_names or new in foreign:
            sys.exit(f"respell: {old} would fall together with {new}")
    for name in all_names:
        if "_" in name and name.replace("_", "-") not in all_names:
            told[name.replace("_", "-")] = name
    return names, fields, told


def words(text, names, fields):
    """Behind a dot stands a field, a declared one or one of the steps that the prover names after the code."""

    def turn(m):
        name = m.group(0)
        if m.start() and text[m.start() - 1] == "." and name not in fields:
            return name
        return names.get(name, name)

    return WORD.sub(turn, text)


def in_antt(text, names, fields):
    out = []
    for line in text.split("\n"):
        code, comment = line, ""
        at = re.search(r"(^|\s)--(\s|$)", line)
        if at:
            code, comment = line[: at.start()], line[at.start() :]
        out.append(words(code, names, fields) + quoted(comment, names, fields))
    return "\n".join(out)


def in_rt(text, names, fields):
    out = []
    for line in text.split("\n"):
        at = line.find("//")
        code, comment = (line, "") if at < 0 else (line[:at], line[at:])
        pieces = re.split(r'("(?:[^"\\]|\\.)*")', code)
        pieces[::2] = [words(p, names, fields) for p in pieces[::2]]
        out.append("".join(pieces) + comment)
    return "\n".join(out)


def quoted(text, names, fields):
    return re.sub(r"`[^`\n]+`", lambda q: words(q.group(0), names, fields), text)


def rewrite(path, turn, names, fields):
    with open(path, encoding="utf-8") as f:
        old = f.read()
    new = turn(old, names, fields)
    if new != old:
        with open(path, "w", encoding="utf-8") as f:
            f.write(new)


def main():
    names, fields, told = mapping()
    for path in sources(".antt"):
        rewrite(path, in_antt, names, fields)
    for path in sources(".rt"):
        rewrite(path, in_rt, names, fields)
    for path in ["README.md", *sources(".md", "docs")]:
        rewrite(path, quoted, told | names, fields)
    print(f"respell: {len(names)} names")


main()
