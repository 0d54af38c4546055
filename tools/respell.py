#!/usr/bin/env python3
"""Spells this repository's own definitions, record fields and lemmas as the language's library does.

usage: python3 tools/respell.py [--check]      at the top of the repository

A name that begins with a small letter is written in snake case, one that begins with a capital in camel case. The names are
those that specs/ and proofs/ declare, or an import gives, with a dash; the names of goals, which the check makes, and those
of the library keep theirs. They are turned in .antt files, in .rt files outside strings, and between backquotes in .md files
but docs/PORT.md, which has the old names. Two names that would fall together in one file stop the script before anything is
written, and a new name that stands elsewhere is told.
"""
import os
import re
import subprocess
import sys

WORD = r"[^\s(){}\[\],;.:\"`λ]+"
HEAD = re.compile(r"^ *(?:(?:pub|abbrev|unfoldable|record|data|private|opaque) )*(" + WORD + r")(?: [({].*)? :(?: |$)", re.M)
TYPE = re.compile(r"^(?:pub )?(?:record|data) (" + WORD + r")", re.M)
FIELD = re.compile(r"^ +pub (" + WORD + r") :", re.M)
ALIAS = re.compile(r"^(?:ghost )?use .*", re.M)
NAMED = re.compile(r" as (" + WORD + r")")
GOAL = re.compile(r"^(?:abbrev )?pub (" + WORD + r") : goal\.", re.M)
STRING = re.compile(r'"(?:[^"\\\n]|\\.)*"')


def files(*endings):
    listed = subprocess.check_output(["git", "ls-files", "-co", "--exclude-standard"], text=True).split("\n")
    return [f for f in listed if f.endswith(endings) and os.path.isfile(f) and "/out/" not in f]


def read(path):
    with open(path, encoding="utf-8") as f:
        return f.read()


def spelled(name):
    if name[0].isupper():
        first, *rest = name.split("-")
        return first + "".join(part[:1].upper() + part[1:] for part in rest)
    return name.replace("-", "_")


def declared(text):
    goals = set(GOAL.findall(text))
    aliases = [n for line in ALIAS.findall(text) for n in NAMED.findall(line)]
    return {n for n in HEAD.findall(text) + TYPE.findall(text) + FIELD.findall(text) + aliases if n not in goals}


def main(args):
    own, per_file, goals, library = set(), {}, set(), set()
    for f in files(".antt", ".rt"):
        text = read(f)
        names = declared(text) if f.endswith(".antt") else {n for line in ALIAS.findall(text) for n in NAMED.findall(line)}
        per_file[f] = names
        goals |= set(GOAL.findall(text))
        own |= {n for n in names if "-" in n and (n[0].isalpha() or n[0] == "_")}
        library |= {n for line in re.findall(r"^(?:ghost )?use Rattle\.std\..*", text, re.M) for n in re.findall(WORD, line)}
    both = sorted(own & goals)
    for n in both:
        print(f"kept: {n} is a goal's name too")
    turned = {n: spelled(n) for n in own if n not in goals and n not in library}
    bad = 0
    for f, names in per_file.items():
        made = {}
        for n in sorted(names):
            m = turned.get(n, n)
            if m in made:
                print(f"{f}: {made[m]} and {n} fall together as {m}")
                bad = 1
            made[m] = n
    every = set().union(*per_file.values())
    for n, m in sorted(turned.items()):
        if m in every:
            print(f"look: {n} becomes {m}, which stands elsewhere")
    if bad:
        return 1
    token = re.compile(r"(?<![\w'\-·])(" + "|".join(re.escape(n) for n in sorted(turned, key=len, reverse=True)) + r")(?![\w'\-])")
    turn = lambda text: token.sub(lambda m: turned[m.group(1)], text)
    count = 0
    for f in files(".antt", ".rt", ".md"):
        if f == "docs/PORT.md":
            continue
        text = read(f)
        if f.endswith(".antt"):
            new = turn(text)
        elif f.endswith(".rt"):
            at, parts = 0, []
            for m in STRING.finditer(text):
                parts += [turn(text[at:m.start()]), m.group(0)]
                at = m.end()
            new = "".join(parts) + turn(text[at:])
        else:
            new = re.sub(r"`[^`\n]+`", lambda m: turn(m.group(0)), text)
        if new != text:
            count += 1
            if "--check" not in args:
                with open(f, "w", encoding="utf-8") as out:
                    out.write(new)
    print(f"{len(turned)} names, {count} files")
    return 0


if __name__ == "__main__":
    sys.exit(main(sys.argv[1:]))
