#!/usr/bin/env python3
"""Respells the repository's own names in specs/, proofs/ and clauses: types and modules in camel case, all else in snake case.

    python3 tools/respell.py [--list]

A name is its own if a file of specs/ or proofs/ declares it, as a definition, a lemma, a field or a constructor. The names of goals,
which Rattle makes, stay. --list writes nothing and prints each old name with its new one. A second run changes nothing.
"""
import os
import re
import sys

TOP = os.path.join(os.path.dirname(os.path.abspath(__file__)), "..")
NAME = r"[^\s(){}.;,@\"«»`|:∷λ]+"
WORD = re.compile(NAME)
DECLARED = re.compile(r"^\s*(?:(?:abbrev|unfoldable|pub|data|record|let|in|ruleset)\s+)*(" + NAME + r")(?:\s+[({].*)?\s+:\s")
LOCAL = re.compile(r"\blet (" + NAME + r")(?: :| =)")
BOUND = re.compile(r"\(([^():]+) : ")
BINDER = re.compile(r"λ ([^.()]+)\.")
ALIAS = re.compile(r" as (" + NAME + r")")
QUIET = re.compile(r'"(?:[^"\\\n]|\\.)*"|(?<!\S)--[^\n]*|//[^\n]*')
SPAN = re.compile(r"`[^`\n]*`")
# steps and fields of a goal that are spelled like names of our own
MADE = re.compile(r"(?<![\w.])[cw]\.(?:new-book|(?:[\w-]+\.)*waiting-is)\b")


def files():
    for folder, folders, names in os.walk(os.path.join(TOP, "crates")):
        folders[:] = sorted(f for f in folders if f != "out")
        for name in sorted(names):
            if name.endswith((".antt", ".rt")):
                yield os.path.join(folder, name)


def text_of(path):
    with open(path, encoding="utf-8") as f:
        return f.read()


def declared(text):
    for line in text.split("\n"):
        if line.startswith(("use ", "ghost use ")):
            yield from ALIAS.findall(line)
        if line.startswith(("--", "use ", "ghost use ")):
            continue
        found = DECLARED.match(line)
        if found and not re.search(r":\s*goal\.", line):
            yield found.group(1)
        yield from LOCAL.findall(line)
        for names in BOUND.findall(line) + BINDER.findall(line):
            yield from names.split()


def respelled(name):
    if name[0].isupper():
        return "".join(part[0].upper() + part[1:] for part in name.split("-"))
    return re.sub(r"(?<=[a-z])[A-Z](?=[a-z])", lambda m: "_" + m.group().lower(), name).replace("-", "_")


def table():
    own = set()
    for path in files():
        own |= set(declared(text_of(path)) if path.endswith(".antt") else ALIAS.findall("\n".join(re.findall(r"(?m)^ghost use .*", text_of(path)))))
    return {name: respelled(name) for name in sorted(own) if re.search(r"\w-\w", name)}


def turned(text, names):
    """The text with its own names respelled; in a comment only within code spans."""
    def turn(part):
        made = [m.span() for m in MADE.finditer(part)]
        return WORD.sub(lambda m: m.group() if any(a <= m.start() < b for a, b in made) else names.get(m.group(), m.group()), part)

    out, at = [], 0
    for quiet in QUIET.finditer(text):
        out.append(turn(text[at:quiet.start()]))
        out.append(quiet.group() if quiet.group()[0] == '"' else SPAN.sub(lambda m: "`" + turn(m.group()[1:-1]) + "`", quiet.group()))
        at = quiet.end()
    return "".join(out) + turn(text[at:])


def falls_together(path, names):
    """Two names of one file that would become one."""
    words = set(WORD.findall(QUIET.sub("", text_of(path))))
    return [(a, b) for a, b in names.items() if a in words and b in words]


def main():
    names = table()
    if "--list" in sys.argv:
        for old, new in names.items():
            print(old, new)
        return
    for path in files():
        for old, new in falls_together(path, names):
            print(f"look: {os.path.relpath(path, TOP)}: {old} and {new} fall together")
    for path in files():
        before = text_of(path)
        after = turned(before, names)
        if after != before:
            with open(path, "w", encoding="utf-8") as f:
                f.write(after)


if __name__ == "__main__":
    main()
