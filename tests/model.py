#!/usr/bin/env python3
"""A second implementation of the rules that docs/ states, written from the rules and not from the Rattle code.

    python3 tests/model.py [KIND ...] < schedule        writes the transcript

It is slow and plain on purpose. The expected output of the crate `cases` is made with it.
"""
import sys

OUT, WAITING, INSIDE, LEAVING = range(4)
WORKERS = 16


class Refused(Exception):
    def __init__(self, number):
        self.number = number


class Lock:
    """The calls that every kind answers alike; a kind gives `place`, `mark`, `begin`, `leave` and `access`."""

    def __init__(self):
        self.label = ["out"] * WORKERS

    def place(self, w):
        label = self.label[w]
        if label == "out":
            return OUT
        if label == "inside":
            return INSIDE
        return WAITING if label.startswith("W") else LEAVING

    def lock(self, w):
        if w >= WORKERS:
            raise Refused(1)
        if self.place(w) in (WAITING, LEAVING):
            raise Refused(2)
        if self.place(w) == INSIDE:
            raise Refused(3)
        self.label[w] = "W0"
        return 0

    def unlock(self, w):
        if w >= WORKERS:
            raise Refused(1)
        if self.place(w) in (WAITING, LEAVING):
            raise Refused(2)
        if not self.mark(w):
            raise Refused(4)
        self.leave(w)
        self.label[w] = "X0"
        return 0

    def leave(self, w):
        pass

    def step(self, w):
        if w >= WORKERS:
            raise Refused(1)
        if self.place(w) in (OUT, INSIDE):
            raise Refused(5)
        before = self.place(w)
        self.label[w] = getattr(self, self.label[w])(w)
        if self.place(w) == before:
            return 0
        return 20 if before == WAITING else 21


class Tas(Lock):
    def __init__(self):
        super().__init__()
        self.holder = None

    def mark(self, w):
        return self.holder == w

    def W0(self, w):
        if self.holder is None:
            self.holder = w
            return "inside"
        return "W0"

    def X0(self, w):
        self.holder = None
        return "out"


class Ticket(Lock):
    def __init__(self):
        super().__init__()
        self.next = self.serving = 0
        self.holder = None
        self.ticket = [None] * WORKERS

    def mark(self, w):
        return self.holder == w

    def W0(self, w):
        self.ticket[w] = self.next
        self.next = (self.next + 1) % 2**32
        return "W1"

    def W1(self, w):
        return "W2" if self.serving == self.ticket[w] else "W1"

    def W2(self, w):
        self.holder = w
        return "inside"

    def X0(self, w):
        self.holder = None
        return "X1"

    def X1(self, w):
        self.serving = (self.serving + 1) % 2**32
        return "out"


class Array(Lock):
    def __init__(self):
        super().__init__()
        self.next = 0
        self.is_open = [True] + [False] * 15
        self.slot = [None] * WORKERS

    def mark(self, w):
        # a worker that is waiting or leaving was refused before
        return self.slot[w] is not None

    def W0(self, w):
        self.slot[w] = self.next % 16
        self.next = (self.next + 1) % 2**32
        return "W1"

    def W1(self, w):
        return "W2" if self.is_open[self.slot[w]] else "W1"

    def W2(self, w):
        self.is_open[self.slot[w]] = False
        return "inside"

    def X0(self, w):
        self.is_open[(self.slot[w] + 1) % 16] = True
        self.slot[w] = None
        return "out"


class Mcs(Lock):
    def __init__(self):
        super().__init__()
        self.last = None
        self.next = [None] * WORKERS
        self.locked = [False] * WORKERS
        self.pred = [None] * WORKERS
        self.succ = [None] * WORKERS

    def mark(self, w):
        return self.locked[w]

    def W0(self, w):
        self.next[w] = None
        return "W1"

    def W1(self, w):
        self.pred[w], self.last = self.last, w
        return "W5" if self.pred[w] is None else "W2"

    def W2(self, w):
        self.locked[w] = True
        return "W3"

    def W3(self, w):
        self.next[self.pred[w]] = w
        return "W4"

    def W4(self, w):
        return "W4" if self.locked[w] else "W5"

    def W5(self, w):
        self.locked[w] = True
        return "inside"

    def X0(self, w):
        if self.next[w] is None:
            return "X1"
        self.succ[w] = self.next[w]
        return "X3"

    def X1(self, w):
        if self.last == w:
            self.last = None
            return "X4"
        return "X2"

    def X2(self, w):
        if self.next[w] is None:
            return "X2"
        self.succ[w] = self.next[w]
        return "X3"

    def X3(self, w):
        self.locked[self.succ[w]] = False
        return "X4"

    def X4(self, w):
        self.locked[w] = False
        return "out"


class Clh(Lock):
    def __init__(self):
        super().__init__()
        self.wait = [False] * 17
        self.prev = [None] * 17
        self.tail = 16
        self.own = list(range(WORKERS))
        self.pred = [None] * WORKERS

    def mark(self, w):
        return self.prev[self.own[w]] is not None

    def leave(self, w):
        self.pred[w] = self.prev[self.own[w]]

    def W0(self, w):
        self.wait[self.own[w]] = True
        return "W1"

    def W1(self, w):
        self.pred[w], self.tail = self.tail, self.own[w]
        return "W2"

    def W2(self, w):
        self.prev[self.own[w]] = self.pred[w]
        return "W3"

    def W3(self, w):
        return "W3" if self.wait[self.pred[w]] else "inside"

    def X0(self, w):
        self.wait[self.own[w]] = False
        return "X1"

    def X1(self, w):
        self.own[w] = self.pred[w]
        self.prev[self.own[w]] = None
        return "out"


KINDS = {"tas": Tas, "ticket": Ticket, "array": Array, "mcs": Mcs, "clh": Clh}


class Book:
    def __init__(self, lock):
        self.locks = lock
        self.records = []
        self.weight = 0
        self.slips = {}

    def call(self, worker, name, chest, grams):
        try:
            if name in ("lock", "step"):
                return getattr(self.locks, name)(worker)
            if name == "unlock":
                answer = self.locks.unlock(worker)
                self.slips.pop(worker, None)
                return answer
            if worker >= WORKERS:
                raise Refused(1)
            if self.locks.place(worker) != INSIDE:
                raise Refused(6)
            return self.look(worker, chest, grams) if name == "look" else self.enter(worker)
        except Refused as refusal:
            return refusal.number

    def look(self, worker, chest, grams):
        if grams > 1_000_000:
            raise Refused(9)
        found = any(c == chest for c, _ in self.records)
        self.slips[worker] = (chest, grams, found, self.weight)
        return 22 if found else 0

    def enter(self, worker):
        if worker not in self.slips:
            raise Refused(7)
        chest, grams, found, weight = self.slips[worker]
        if found:
            raise Refused(8)
        if len(self.records) >= 256:
            raise Refused(10)
        self.records.append((chest, grams))
        self.weight = weight + grams
        del self.slips[worker]
        return 0


class Fault(Exception):
    def __init__(self, number, line):
        self.number, self.line = number, line


class Reader:
    def __init__(self, text):
        self.text, self.line = text, 0

    def ended(self):
        return self.text == b""

    def value(self, key, allowed):
        """The value of the next line, which has to have this key and a value that `allowed` takes."""
        self.line += 1
        line, newline, rest = self.text.partition(b"\n")
        if not newline:
            raise Fault(14, self.line)
        self.text = rest
        found, _, value = line.partition(b"=")
        if found != key:
            raise Fault(11, self.line)
        value = allowed(value)
        if value is None:
            raise Fault(12, self.line)
        return value


def number(most):
    def allowed(value):
        if not value or not all(48 <= b <= 57 for b in value) or (len(value) > 1 and value[:1] == b"0"):
            return None
        return int(value) if len(value) <= 10 and int(value) <= most else None
    return allowed


def one_of(names):
    return lambda value: value.decode("latin-1") if value.decode("latin-1") in names else None


def read(text, room=1024, kinds=tuple(KINDS)):
    if len(text) > 32_768:
        raise Fault(15, 0)
    reader = Reader(text)
    kind = reader.value(b"lock", one_of(kinds))
    events = []
    while not reader.ended():
        worker = reader.value(b"worker", number(255))
        if len(events) >= min(1024, room):
            raise Fault(13, reader.line)
        name = reader.value(b"call", one_of(("lock", "unlock", "step", "look", "enter")))
        chest = grams = None
        if name == "look":
            chest = reader.value(b"chest", number(2**32 - 1))
            grams = reader.value(b"grams", number(2**32 - 1))
        events.append((worker, name, chest, grams))
    return kind, events


def transcript(text, kinds=tuple(KINDS)):
    try:
        kind, events = read(text, kinds=kinds)
    except Fault as fault:
        return f"fault={fault.number}\nline={fault.line}\n"
    book = Book(KINDS[kind]())
    answers = [book.call(*event) for event in events]
    inside = [w for w in range(WORKERS) if book.locks.place(w) == INSIDE]
    assert len(inside) <= 1
    lines = [f"answer={a}" for a in answers]
    lines.append(f"inside={inside[0] if inside else 'none'}")
    lines.append(f"misuse={answers.count(4)}")
    lines.append(f"chests={len(book.records)}")
    lines.append(f"grams={book.weight}")
    return "".join(line + "\n" for line in lines)


if __name__ == "__main__":
    sys.stdout.write(transcript(sys.stdin.buffer.read(), tuple(sys.argv[1:]) or tuple(KINDS)))
