#!/usr/bin/env python3
"""Writes crates/cases/stdin and crates/cases/stdout: texts, and the transcripts that tests/model.py gives them.

    python3 tests/make_cases.py

The expected output comes from the model, never from the program. The texts in ASIDE were also worked out by
hand; the model has to agree with them.
"""
import os
import random

import model

ROOT = os.path.join(os.path.dirname(os.path.abspath(__file__)), "..", "crates", "cases")
KINDS = ("tas", "ticket", "array", "mcs", "clh")


def text(kind, *events):
    lines = [f"lock={kind}"]
    for event in events:
        lines += [f"worker={event[0]}", f"call={event[1]}"]
        if event[1] == "look":
            lines += [f"chest={event[2]}", f"grams={event[3]}"]
    return "".join(line + "\n" for line in lines).encode()


def calls(worker, *names):
    return [(worker, name) for name in names]


def ending(answers, inside, misuse, chests, grams):
    lines = [f"answer={a}" for a in answers]
    lines += [f"inside={inside}", f"misuse={misuse}", f"chests={chests}", f"grams={grams}"]
    return "".join(line + "\n" for line in lines)


def fault(number, line):
    return f"fault={number}\nline={line}\n"


# worked out by hand from the rules
ASIDE = [
    (text("tas", (0, "lock"), (0, "step"), (1, "unlock"), (0, "look", 118, 52000), (0, "enter")), ending([0, 20, 4, 0, 0], 0, 1, 1, 52000)),
    (text("tas", *calls(0, "lock", "step"), *calls(1, "lock", "step", "unlock")), ending([0, 20, 0, 0, 2], 0, 0, 0, 0)),
    (text("ticket", *calls(5, "lock", "step", "step", "step", "step", "lock")), ending([0, 0, 0, 20, 5, 3], 5, 0, 0, 0)),
    (text("mcs", *calls(3, "lock", "step", "step", "step", "unlock", "step", "step", "step", "unlock")), ending([0, 0, 0, 20, 0, 0, 0, 21, 4], "none", 1, 0, 0)),
    (text("clh", *calls(0, "lock", "step", "step", "step", "step", "unlock", "step", "step", "unlock")), ending([0, 0, 0, 0, 20, 0, 0, 21, 4], "none", 1, 0, 0)),
    (text("array", *calls(2, "lock", "step", "step", "step", "unlock", "step")), ending([0, 0, 0, 20, 0, 21], "none", 0, 0, 0)),
    # mcs, a late link: 1 swaps in behind 0, 0 leaves and waits at X2 until 1 has linked
    (text("mcs", *calls(0, "lock", "step", "step", "step"), *calls(1, "lock", "step", "step"), *calls(0, "unlock", "step", "step", "step"), *calls(1, "step", "step", "step"), *calls(0, "step", "step"), *calls(1, "step", "step"), *calls(0, "step")),
     ending([0, 0, 0, 20, 0, 0, 0, 0, 0, 0, 0, 0, 0, 0, 0, 0, 0, 20, 21], 1, 0, 0, 0)),
    (text("tas", (15, "lock"), (16, "lock"), (255, "step")), ending([0, 1, 1], "none", 0, 0, 0)),
    (text("tas", *calls(0, "lock", "step"), (0, "look", 1, 1000000), (0, "look", 1, 1000001), (0, "enter")), ending([0, 20, 0, 9, 0], 0, 0, 1, 1000000)),
    (text("tas", *calls(0, "lock", "step"), (0, "look", 7, 5), *calls(0, "unlock", "step", "lock", "step", "enter")), ending([0, 20, 0, 0, 21, 0, 20, 7], 0, 0, 0, 0)),
    (b"lock=clh\n", ending([], "none", 0, 0, 0)),
    (b"", fault(14, 1)),
    (b"lock=tas", fault(14, 1)),
    (b"color=tas", fault(14, 1)),
    (b"lock=tas\nworker=1", fault(14, 2)),
    (b"lock=tas\nworker=1\n", fault(14, 3)),
    (b"lock=tas\nworker=1\ncall=look\nchest=1\n", fault(14, 5)),
    (b"look=tas\n", fault(11, 1)),
    (b"Lock=tas\n", fault(11, 1)),
    (b"\n", fault(11, 1)),
    (b"lock\n", fault(12, 1)),
    (b"lock=\n", fault(12, 1)),
    (b"lock=flags\n", fault(12, 1)),
    (b"lock=tas=\n", fault(12, 1)),
    (b"lock=tas\nworker=007\ncall=lock\n", fault(12, 2)),
    (b"lock=tas\nworker=+1\ncall=lock\n", fault(12, 2)),
    (b"lock=tas\nworker=-0\ncall=lock\n", fault(12, 2)),
    (b"lock=tas\nworker= 1\ncall=lock\n", fault(12, 2)),
    (b"lock=tas\nworker=1\r\ncall=lock\n", fault(12, 2)),
    (b"lock=tas\nworker=\ncall=lock\n", fault(12, 2)),
    (b"lock=tas\nworker=256\ncall=lock\n", fault(12, 2)),
    (b"lock=tas\nworker=\xff\xfe\ncall=lock\n", fault(12, 2)),
    (b"lock=tas\nworker=1\ncall=peek\n", fault(12, 3)),
    (b"lock=tas\nworker=1\nchest=1\n", fault(11, 3)),
    (b"lock=tas\nworker=1\ncall=look\nchest=4294967296\ngrams=1\n", fault(12, 4)),
    (b"lock=tas\nworker=1\ncall=look\ngrams=1\nchest=1\n", fault(11, 4)),
    (b"lock=tas\nworker=0\ncall=look\nchest=4294967295\ngrams=4294967295\n", ending([6], "none", 0, 0, 0)),
    (b"lock=tas\n\n", fault(11, 2)),
    (b"\xef\xbb\xbflock=tas\n", fault(11, 1)),
    (text("tas", *calls(0, *["step"] * 1024)), ending([5] * 1024, "none", 0, 0, 0)),
    (text("tas", *calls(0, *["step"] * 1025)), fault(13, 2050)),
    (text("tas", *calls(0, *["step"] * 1024)) + b"worker=0\n", fault(13, 2050)),
    (text("tas", *calls(0, *["step"] * 1024)) + b"worker=300\n", fault(12, 2050)),
    (b"lock=tas\nworker=" + b"1" * (32768 - 17) + b"\n", fault(12, 2)),
    (b"lock=tas\nworker=" + b"1" * (32769 - 17) + b"\n", fault(15, 0)),
]


def full_book(kind, steps):
    """256 records, then one more: the 256th is accepted and the next enter gets 10."""
    events = calls(9, "lock", *["step"] * steps)
    for chest in range(257):
        events += [(9, "look", chest, 1000 + chest), (9, "enter")]
    return text(kind, *events)


def interleaved(kind, seed, length=120, workers=5):
    """Any calls by any workers, mostly those that lead on."""
    rng = random.Random(f"{kind} {seed}")
    events = []
    for _ in range(length):
        worker = rng.choice([rng.randrange(workers)] * 12 + [rng.randrange(16), 16, 255])
        name = rng.choice(["step"] * 9 + ["lock"] * 3 + ["unlock"] * 2 + ["look"] * 3 + ["enter"] * 3)
        events.append((worker, name, rng.randrange(12), rng.choice([0, 1, 52000, 1000000, 1000001])) if name == "look" else (worker, name))
    return text(kind, *events)


def turns(kind, seed, rounds=30):
    """Workers that follow the rules, each step by whoever the dice name, so that many get in."""
    rng = random.Random(f"turns {kind} {seed}")
    lock = model.KINDS[kind]()
    book = model.Book(lock)
    events = []
    for _ in range(rounds * 12):
        w = rng.randrange(4)
        place = lock.place(w)
        if place == model.OUT:
            event = (w, "lock")
        elif place == model.INSIDE:
            event = rng.choice([(w, "look", rng.randrange(20), rng.randrange(1000)), (w, "enter"), (w, "unlock"), (w, "unlock")])
        else:
            event = (w, "step")
        if rng.randrange(40) == 0:
            event = (rng.randrange(16), "unlock")
        events.append(event)
        book.call(event[0], event[1], *(event[2:] if len(event) > 2 else (None, None)))
    return text(kind, *events)


def main():
    cases = []
    for given, expected in ASIDE:
        assert model.transcript(given) == expected, (given[:200], model.transcript(given)[:200])
        cases.append(given)
    for kind, steps in (("tas", 1), ("ticket", 3), ("array", 3), ("mcs", 3), ("clh", 4)):
        given = full_book(kind, steps)
        assert model.transcript(given).split("\n")[-6:] == ["answer=10", "inside=9", "misuse=0", "chests=256", f"grams={sum(1000 + c for c in range(256))}", ""]
        cases.append(given)
        cases += [interleaved(kind, seed) for seed in range(4)]
        cases += [turns(kind, seed) for seed in range(3)]
    with open(os.path.join(ROOT, "stdin"), "wb") as texts, open(os.path.join(ROOT, "stdout"), "w") as transcripts:
        for given in cases:
            assert b"%" not in given
            texts.write(given + b"%\n")
            transcripts.write(model.transcript(given) + "%\n")
    print(len(cases), "cases")


if __name__ == "__main__":
    main()
