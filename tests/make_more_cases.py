#!/usr/bin/env python3
"""Writes crates/more_cases/stdin and crates/more_cases/stdout, as tests/make_cases.py writes those of cases, with many more texts.

    python3 tests/make_more_cases.py

The expected output comes from the model, never from the program. After each transcript stands a line of a percent sign and 16,
the number of the refusal where the memory is one byte shorter than the transcript.

It ends only if the texts cover every fault, and at each kind of lock every answer and every refusal of a call.
"""
import os
import random

import model
from make_cases import ASIDE, KINDS, calls, ending, full_book, interleaved, text, turns

ROOT = os.path.join(os.path.dirname(os.path.abspath(__file__)), "..", "crates", "more_cases")


def refused(kind, steps):
    """Every refusal of a call but that of a full book, with its answers by hand."""
    given = text(kind, *calls(0, "lock", *["step"] * steps), (0, "lock"), (0, "step"), (1, "lock"), (1, "lock"), (1, "unlock"), (2, "unlock"), (2, "look", 7, 30), (1, "enter"), (16, "enter"),
                 (0, "enter"), (0, "look", 7, 1000001), (0, "look", 7, 30), (0, "enter"), (0, "look", 7, 30), (0, "enter"), *calls(0, "unlock", "unlock", "lock", "enter"))
    return given, ending([0] + [0] * (steps - 1) + [20, 3, 5, 0, 2, 2, 4, 6, 6, 1, 7, 9, 0, 0, 22, 8, 0, 2, 2, 6], "none", 1, 1, 30)


def lone(kind, steps, exits, rounds):
    """One worker's turns, more than there are slots."""
    return text(kind, *calls(3, *(["lock"] + ["step"] * steps + ["unlock"] + ["step"] * exits) * rounds))


def sixteen(kind, seed):
    """All sixteen workers want in at once; each step is by whoever the dice name, until all have passed."""
    rng = random.Random(f"sixteen {kind} {seed}")
    lock = model.KINDS[kind]()
    order = rng.sample(range(16), 16)
    events = calls_on(lock, [(w, "lock") for w in order])
    left = list(order)
    while left and len(events) < 1000:
        w = rng.choice(left)
        events += calls_on(lock, [(w, "unlock" if lock.place(w) == model.INSIDE else "step")])
        if lock.place(w) == model.OUT:
            left.remove(w)
    return text(kind, *events)


def calls_on(lock, events):
    for w, name in events:
        getattr(lock, name)(w)
    return events


SAMPLE = ASIDE[0][0]


def truncated():
    """The sample, cut at each of its bytes."""
    return [SAMPLE[:i] for i in range(len(SAMPLE))]


def damaged():
    """The sample with one line or one byte wrong."""
    lines = SAMPLE.split(b"\n")[:-1]
    joined = lambda ls: b"".join(line + b"\n" for line in ls)
    out = []
    for i, line in enumerate(lines):
        key, _, value = line.partition(b"=")
        out.append(joined(lines[:i] + lines[i + 1:]))
        out.append(joined(lines[:i] + [line] + lines[i:]))
        for other in (key, key + b"=", b"=" + value, key.upper() + b"=" + value, key + b"==" + value, key + b"=" + value + b" ", b" " + line, line + b"\r", key + b"=0" + value, b""):
            out.append(joined(lines[:i] + [other] + lines[i + 1:]))
    rng = random.Random("damaged")
    for _ in range(80):
        i = rng.randrange(len(SAMPLE))
        byte = rng.choice([b for b in range(256) if b != ord("%")])
        out.append(SAMPLE[:i] + bytes([byte]) + SAMPLE[i + rng.randrange(2):])
    return out


def covered(cases):
    """Every fault, and at each kind every answer and refusal of a call, comes out somewhere."""
    faults, answers = set(), {kind: set() for kind in KINDS}
    for given in cases:
        for line in model.transcript(given).split("\n"):
            key, _, value = line.partition("=")
            if key == "fault":
                faults.add(int(value))
            if key == "answer":
                answers[given[5:given.index(b"\n")].decode()].add(int(value))
    assert faults == {11, 12, 13, 14, 15}, faults
    for kind in KINDS:
        assert answers[kind] == set(range(11)) | {20, 21, 22}, (kind, answers[kind])


def main():
    cases = []
    for given, expected in ASIDE:
        assert model.transcript(given) == expected, (given[:200], model.transcript(given)[:200])
        cases.append(given)
    cases += truncated() + damaged()
    for kind, steps, exits in (("tas", 1, 1), ("ticket", 3, 2), ("array", 3, 1), ("mcs", 3, 3), ("clh", 4, 2)):
        given = full_book(kind, steps)
        assert model.transcript(given).split("\n")[-6:] == ["answer=10", "inside=9", "misuse=0", "chests=256", f"grams={sum(1000 + c for c in range(256))}", ""]
        cases.append(given)
        given, expected = refused(kind, steps)
        assert model.transcript(given) == expected, (kind, model.transcript(given))
        cases.append(given)
        cases.append(lone(kind, steps, exits, 40))
        assert model.transcript(cases[-1]).count("answer=21\n") == 40
        cases += [interleaved(kind, seed) for seed in range(4)]
        cases += [turns(kind, seed) for seed in range(3)]
        cases += [sixteen(kind, seed) for seed in range(2)]
        assert model.transcript(cases[-1]).count("answer=21\n") == 16
    covered(cases)
    with open(os.path.join(ROOT, "stdin"), "wb") as texts, open(os.path.join(ROOT, "stdout"), "w") as transcripts:
        for given in cases:
            assert b"%" not in given
            texts.write(given + b"%\n")
            transcripts.write(model.transcript(given) + "%16\n")
    print(len(cases), "cases")


if __name__ == "__main__":
    main()
