#!/usr/bin/env python3
"""Turns the names of goals and steps that the proofs of a crate cite from the older kit's spelling to today's.

usage: python3 tools/goal_names.py crates/NAME        with the crates below it proved

A name from the source keeps its underscores today, as in `returns-in_ok-low`, where the older kit wrote `returns-in-ok-low`.
The check lists the names that it makes for each function; an older one among them is turned where it fits just one of
today's. The folders of functions that call themselves are left out, and the check says what is still to mend.
"""

import json
import os
import re
import subprocess
import sys
import tempfile

WORD = re.compile(r"[^\s(){}\[\].,;:@«»⌜⌝\"`|?!&$#=λ→≡]+")
KEY = re.compile(r"Rattle-\w+-proofs\.(.*)\.Lts$")
LISTED = ("loops", "changed", "typed", "arms", "clauses", "asked", "settled", "asked_at", "args")


def strings(value):
    if isinstance(value, str):
        yield value
    elif isinstance(value, list):
        for part in value:
            yield from strings(part)
    elif isinstance(value, dict):
        for key, part in value.items():
            yield key
            yield from strings(part)


def todays(of_function):
    """The names that the check makes for a function: its goals, its steps, and those of its loops."""
    names = {goal[1] for goal in of_function.get("needs", [])}
    names |= {place[2][1] for place in of_function.get("places", []) if place[2]}
    names |= set(of_function.get("places_by_name", []))
    for part in LISTED:
        names |= set(strings(of_function.get(part)))
    names.discard("")
    return names | {before + name for name in names for before in ("invariant-", "decreases-", "branch-")}


def turns(names):
    """Each older spelling with today's, where there is just one."""
    older = {}
    for name in names:
        dashed = name.replace("_", "-")
        if dashed not in names:
            older.setdefault(dashed, set()).add(name)
    return {dashed: fits.pop() for dashed, fits in older.items() if len(fits) == 1}


def main():
    crate = os.path.abspath(sys.argv[1])
    with tempfile.TemporaryDirectory() as out:
        said = subprocess.run(["rt", "check", "--generated", out, "--old-names"], cwd=crate, capture_output=True, text=True)
        listed = os.path.join(out, "names.json")
        if not os.path.exists(listed):
            sys.exit(said.stdout[-2000:])
        with open(listed, encoding="utf-8") as f:
            functions = json.load(f)
    for key, of_function in functions.items():
        at = KEY.match(key)
        folder = os.path.join(crate, "proofs", *at.group(1).split(".")) if at else ""
        if not os.path.isdir(folder):
            continue
        turn = turns(todays(of_function))
        for name in sorted(os.listdir(folder)):
            path = os.path.join(folder, name)
            if not name.endswith(".antt"):
                continue
            with open(path, encoding="utf-8") as f:
                old = f.read()
            new = WORD.sub(lambda m: turn.get(m.group(0), m.group(0)), old)
            if new != old:
                with open(path, "w", encoding="utf-8") as f:
                    f.write(new)
                print("turned", os.path.relpath(path))


main()
