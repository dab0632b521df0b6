#!/usr/bin/env python3
"""Counts, in crates/*/src, the places of older forms, point by point, and lists them with -v.

    python3 tools/count_forms.py [-v] [FOLDER]
"""
import glob
import os
import re
import sys
from collections import defaultdict

LINES = {
    "1 a test whose other branch only hands on another Option or Result": r"^\s*let (Some|Ok|Err)\(.*\) = .* else",
    "1 a match that only answers true or false": r"=> (true|false),?$",
    "1 numbers compared in place of values": r"number\(.*\) (==|!=) .*number\(\)",
    "3 a loop with a condition": r"^\s*while ",
    "3 a loop over numbers": r"\bfor \w+ in \d",
    "3 an index or a count kept by hand": r"enumerate\(\)|\bcount \+= 1|^\s*start = |\blen \+= got",
    "4 a conversion or a name by hand": r"fn (number|name|named|line|\w+_name|\w+_named|\w+_number|bare_call|same_bytes)\(",
    "4 printing by hand": r"impl.* (fmt::Display|Printable) for",
    "6 a fixed buffer or table": r"^\s*(pub )?(let mut )?\w+(: | = )\[.*; [\w_]+\][,;]",
    "6 a length or an index beside what it counts": r"^\s*(pub(\(crate\))? )?(len|at): usize,",
    "7 a match over labels, calls, kinds or stages": r"match (self|kind|event\.call|call|label|place|self\.label\(w\)|self\.worker\(w\)\.label|self\.lock\.place\(w\)\?|\((label|stage), \w+\)) \{",
}


def functions(text):
    """Each function with a body: its name, its head and its body."""
    for m in re.finditer(r"^ *(?:pub(?:\(crate\))? )?fn (\w+)", text, re.M):
        lines = text[m.start():].splitlines(keepends=True)
        indent = re.match(" *", lines[0]).group(0)
        head, body, inside = "", "", False
        for line in lines:
            if not inside and re.match(r"%s(.*\S )?\{( *\})?$" % indent, line.rstrip()) and "ensures" not in line and "requires" not in line:
                inside = True
            if inside:
                body += line
                if line.rstrip() == indent + "}" or line.rstrip().endswith("{}"):
                    yield m.group(1), head, body
                    break
            else:
                head += line
                if line.rstrip().endswith(";"):
                    break


def shape(body):
    body = re.sub(r'b?"[^"]*"', "S", body)
    body = re.sub(r"\b[A-Z]\w*(<\w+>)?(::\w+)*", "T", body)
    body = re.sub(r"\b\d[\d_]*(u\d+)?\b", "N", body)
    return re.sub(r"\s+", " ", body)


def main():
    args = sys.argv[1:]
    verbose = "-v" in args
    root = ([a for a in args if a != "-v"] or ["."])[0]
    files = sorted(glob.glob(os.path.join(root, "crates/*/src/*.rt")))
    found = defaultdict(list)
    bodies = defaultdict(list)
    clauses = defaultdict(list)
    fields = defaultdict(list)
    for path in files:
        text = open(path, encoding="utf-8").read()
        name = os.path.relpath(path, root)
        for i, line in enumerate(text.splitlines(), 1):
            for what, pattern in LINES.items():
                if re.search(pattern, line) and not line.lstrip().startswith("//"):
                    found[what].append("%s:%d: %s" % (name, i, line.strip()))
        for fn, head, body in functions(text):
            place = "%s %s" % (name, fn)
            if body.count("\n") >= 2:
                bodies[shape(body)].append(place)
            for m in re.finditer(r"(requires|ensures\*?)( \w+)? \{(.*?)\}\n", head, re.S):
                clauses[m.group(1) + re.sub(r"\s+", " ", m.group(3))].append(place)
            for m in re.finditer(r"\w+: (?:&mut |&)?[\w<>\[\]&', ]+, \w+: (?:&mut |&)?[\w<>\[\]', ]+(?=\))", head):
                fields["parameters " + m.group(0)].append(place)
    for body, places in bodies.items():
        if len(places) > 1:
            found["2 a body that stands in several functions, but for types, sizes and constants"].extend(places)
    for clause, places in clauses.items():
        if len(places) > 2:
            found["5 a clause that stands in three or more contracts"].extend("%s: %s" % (p, clause[:100]) for p in places)
    for pair, places in fields.items():
        if len(places) > 2:
            found["5 parameters that stand together in three or more functions"].extend("%s: %s" % (p, pair) for p in places)
    for path in sorted(glob.glob(os.path.join(root, "crates/*/proofs/**/Answers.antt"), recursive=True)):
        goals = len(re.findall(r"^(?:abbrev )?pub \S+ : goal", open(path, encoding="utf-8").read(), re.M))
        found["8 goals answered by hand"].extend([os.path.relpath(path, root)] * goals)
    for what in sorted(found):
        print("%4d  %s" % (len(found[what]), what))
        if verbose:
            for place in found[what]:
                print("        " + place)


main()
