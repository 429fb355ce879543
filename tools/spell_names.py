#!/usr/bin/env python3
"""Spells the names that this repository's specs/, proofs/ and ghost members declare as today's Rattle does.

usage: python3 tools/spell_names.py [--list]      at the top of the repository

Functions, lemmas, fields and constructors get snake case (`neverByte` and `never-byte` become `never_byte`); types, facts and
modules keep their camel case, also where such a name stands within another (`All-more` becomes `All_more`). Where two names would
become one, the one in camel case gets it, and the other has `_lem` after it (the lemma `text-date` beside the definition `textDate`).
The names that Rattle makes (goals and what their answers cite, as `loop-v-preserved`) stay. Where two names would still meet in one
file the script says so and writes nothing. --list prints the renamings.
It is run once, after the kit's own port.py; what is written since has these spellings.
"""

import os
import re
import sys

DELIMITED = r"[^\s(){};,.@\"«»⌜⌝\[\]]+"
# in code a colon may stand right behind a name
DELIMITED_IN_CODE = r"[^\s(){};,.@\"«»⌜⌝\[\]:]+"
DECLARATION = re.compile(
    rf"^ *(?:abbrev +)?(?:pub +)?(?:abbrev +)?(?:(?:record|data) +)?(?:pub +)?({DELIMITED})(?= *[({{:]| +[({{:])[^=≡]*?:(?!:)"
)
GHOST = re.compile(r"\bghost (\w+)\s*[:=]")
IMPORT = re.compile(r"\buse ([^\s;{]+)\{([^}]*)\}")
ANSWERS = re.compile(r"/(Answers|Invariants)\.antt$")
# paths whose last part is a name that Rattle makes
MADE = re.compile(r"\bgoal\.|\bGoals\b|\bGiven\b")


def files(top):
    for folder in ("crates", "compile-fail"):
        for here, dirs, names in os.walk(os.path.join(top, folder)):
            dirs[:] = sorted(d for d in dirs if d != "out")
            for name in sorted(names):
                if name.endswith((".rt", ".antt", ".edit", ".case")):
                    yield os.path.join(here, name)


def declared(path, text):
    """The names that the text declares."""
    found = set()
    if path.endswith(".rt"):
        return set(GHOST.findall(text))
    if not path.endswith(".antt"):
        return found
    for line in text.split("\n"):
        if line.lstrip().startswith(("--", "use ", "mod ", "pub mod ")) or "goal." in line.split(":", 1)[-1][:6]:
            continue
        m = DECLARATION.match(line)
        if m and re.match(r"[A-Za-z]", m.group(1)):
            found.add(m.group(1))
    return found


def respelled(name):
    parts = []
    for part in name.split("-"):
        if part[:1].islower():
            part = re.sub(r"(?<=[a-z0-9])([A-Z])", lambda m: "_" + m.group(1).lower(), part)
        parts.append(part)
    return "_".join(parts)


def imported(text):
    """The names that the text imports from a library."""
    own = set()
    for m in IMPORT.finditer(text):
        if not re.match(r"Rattle\.(?:algebra|dates|texts|failure_log|trees|steps|sequences|derivation|examples|walkthrough|bench|assembly|notation|assemble|disassemble)\b", m.group(1)):
            own |= {n.strip().split(" as ")[-1] for n in m.group(2).split(",")}
    return own


TOKEN = re.compile(rf"(\.?)({DELIMITED})")
TOKEN_IN_CODE = re.compile(rf"(\.?)({DELIMITED_IN_CODE})")


def turned(path, text, table):
    """The text with its names respelled. Comments of code keep their words."""
    answers = bool(ANSWERS.search(path))
    library = imported(text)
    made = set()
    if answers:
        made = set(re.findall(rf"^(?:abbrev +)?(?:pub +)?({DELIMITED}) : goal\.", text, re.M)) | set(re.findall(rf"goal\.({DELIMITED})", text))
        for m in IMPORT.finditer(text):
            if MADE.search(m.group(1)):
                made |= {n.strip() for n in m.group(2).split(",")}

    def one(m):
        dot, name = m.groups()
        if name not in table or name in made or name in library:
            return m.group(0)
        # behind a dot, in an answer, a name with a dash is one that Rattle made
        if dot and "-" in name and answers and path_head(text, m.start()) in ("c", "g", "l", "w", "goal"):
            return m.group(0)
        return dot + table[name]

    if not path.endswith(".rt"):
        return TOKEN.sub(one, text)
    lines = []
    for line in text.split("\n"):
        if line.lstrip().startswith("//"):
            lines.append(line)
        else:
            lines.append(TOKEN_IN_CODE.sub(one, line))
    return "\n".join(lines)


def path_head(text, at):
    """The first name of the dotted path that goes on at the place."""
    start = at
    while start > 0 and re.match(r"[^\s(){};,@\"\[\]]", text[start - 1]):
        start -= 1
    return text[start:at].split(".")[0]


def main(argv):
    top = os.getcwd()
    texts = {p: open(p, encoding="utf-8").read() for p in files(top)}
    names = set()
    for path, text in texts.items():
        names |= declared(path, text)
    functions = {respelled(n): n for n in sorted(names, reverse=True) if "-" not in n}
    table = {}
    for name in names:
        new = respelled(name)
        if functions.get(new, name) != name:
            new += "_lem"
        if new != name:
            table[name] = new
    if "--list" in argv:
        for old in sorted(table):
            print(old, table[old])
        return 0
    clashes = []
    for path, text in texts.items():
        # a function of the code is no word of a clause
        code = path.endswith((".rt", ".case", ".edit"))
        here = {m.group(2) for m in TOKEN.finditer(text)}
        if code:
            here &= table.keys()
        for old in sorted(here & table.keys()):
            new = table[old]
            others = {o for o in here if o != old and table.get(o, o) == new}
            if others:
                clashes.append(f"{os.path.relpath(path, top)}: {old} and {' '.join(sorted(others))} would both be {new}")
    if clashes:
        print("\n".join(clashes))
        print(f"{len(clashes)} names would fall together: nothing was written")
        return 1
    count = 0
    for path, text in texts.items():
        new = turned(path, text, table)
        if new != text:
            count += 1
            with open(path, "w", encoding="utf-8") as f:
                f.write(new)
    print(f"{len(table)} names respelled in {count} files")
    return 0


if __name__ == "__main__":
    raise SystemExit(main(sys.argv[1:]))
