#!/usr/bin/env python3
"""Respells the definitions and lemmas of this repository, once, right after the kit's own script for older repositories.

usage: python3 tools/respell.py            at the top of the repository

Words of definitions, fields, lemmas and local facts are joined by underscores in place of dashes. Names that the prover
makes (of goals, of steps, of clauses) are left as they are, and so are names that begin with a capital. The script stops,
and writes nothing, where two names would fall together.
"""

import glob
import re
import sys

WORD = re.compile(r"[^\s(){}.,;:\"]+")
DEFINES = re.compile(r"^\s*(?:abbrev |unfoldable )?(?:pub )?(?:record |data )?((?:[^\s(){}:.,;]+ )+)[^:]*: (.*)$")
RECORD = re.compile(r"^\s*(?:pub )?record ([^\s(){}:.,;]+)")
LET = re.compile(r"\blet ([^\s(){}:.,;]+)(?= :| =| \()")
# the older library's word for an entry or its default; two lemmas that would fall together with words of the library
OTHERWISE = {
    "getD-from": "get_or_from",
    "getD-places": "get_or_places",
    "getD-slid": "get_or_slid",
    "bit-and": "bit_of_and",
    "bit-or": "bit_of_or",
}


def is_own(name):
    return "-" in name and re.fullmatch(r"[a-z][A-Za-z0-9]*(-[a-z0-9]+)+", name)


def defined(text):
    """The names that a file defines and that are not answers to a goal."""
    for line in text.split("\n"):
        m = DEFINES.match(line)
        if m and not m.group(2).startswith("goal."):
            yield from (n for n in m.group(1).split() if is_own(n))
        m = RECORD.match(line)
        if m and is_own(m.group(1)):
            yield m.group(1)
        yield from (n for n in LET.findall(line) if is_own(n))


def answers(text):
    """The names that answer a goal, which are the prover's."""
    return set(re.findall(r"^\s*(?:abbrev )?pub (\S+) : goal\.", text, re.M))


def ghost_parts(text):
    """The pieces of a source file, each with whether it is a clause, a ghost item or an import of one."""
    at = 0
    for m in re.finditer(r"^[ \t]*(?:ghost |requires|ensures|also_)", text, re.M):
        if m.start() < at:
            continue
        stop = re.compile(r";|\n[ \t]*(?=(?:ensures|requires|ghost|pub|fn|impl|\{|\}))").search(text, m.end())
        end = stop.start() if stop else len(text)
        yield text[at : m.start()], False
        yield text[m.start() : end], True
        at = end
    yield text[at:], False


def turned(text, new):
    """The text with the names in new respelled, outside strings."""
    pieces = re.split(r'("(?:[^"\\]|\\.)*")', text)
    for i in range(0, len(pieces), 2):
        pieces[i] = WORD.sub(lambda m: new.get(m.group(0), m.group(0)), pieces[i])
    return "".join(pieces)


def main():
    files = {p: open(p, encoding="utf-8").read() for p in sorted(glob.glob("crates/*/**/*", recursive=True)) if p.endswith((".antt", ".rt")) and "/out/" not in p}
    own, theirs = set(), set()
    for p, text in files.items():
        if p.endswith(".antt"):
            own |= set(defined(text))
            theirs |= answers(text)
    new = {n: OTHERWISE.get(n, n.replace("-", "_")) for n in sorted(own | set(OTHERWISE)) if n not in theirs}
    clashes = []
    for p, text in files.items():
        words = set(WORD.findall(text))
        if p.endswith(".antt"):
            clashes += [f"{p}: {n} and {new[n]}" for n in new if n in words and new[n] in words]
    if clashes or len(set(new.values())) != len(new):
        print("these names would fall together:\n  " + "\n  ".join(clashes))
        return 1
    for p, text in files.items():
        after = turned(text, new) if p.endswith(".antt") else "".join(turned(t, new) if ghost else t for t, ghost in ghost_parts(text))
        if after != text:
            open(p, "w", encoding="utf-8").write(after)
    print(f"{len(new)} names respelled")
    if "--list" in sys.argv:
        print("\n".join(f"{a} {b}" for a, b in new.items()))
    return 0


if __name__ == "__main__":
    raise SystemExit(main())
