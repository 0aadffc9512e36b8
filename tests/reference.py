#!/usr/bin/env python3
"""A second hand's reckoner: reads sheet files and prints their reports, straight from the rules.

usage: reference.py vectors        writes crates/vectors/stdin and stdout from sheets/ and from generated files
       reference.py report FILE    prints the report on one file
"""
import glob
import os
import random
import sys
from itertools import combinations

CERTAIN = 2 ** 48
WORD = 2 ** 64


def signed(x):
    x %= WORD
    return x - WORD if x >= WORD // 2 else x


class Fault(Exception):
    def __init__(self, number, record, byte):
        self.told = (number, record, byte)


class Sheet:
    def __init__(self, kind, places=12):
        self.kind, self.capacity = kind, min(12, places)
        self.top = 1 if kind == "plain" else 3
        self.n, self.needs = 1, []
        self.rows = [[0] * 3 for _ in range(8)]

    def levels(self, need):
        base = self.top + 1
        return [need // base ** i % base for i in range(16)]

    def chance(self, i, level):
        return 64 if level == 0 else self.rows[i][level - 1]

    def size(self, n):
        if not 1 <= n <= 8:
            return 10
        if self.needs:
            return 11
        self.n, self.rows = n, [[0] * 3 for _ in range(8)]

    def set(self, i, row):
        if i >= self.n:
            return 1
        seen = [64] + list(row[: self.top])
        if any(b > a for a, b in zip(seen, seen[1:])):
            return 2
        self.rows[i] = list(row[: self.top]) + [0] * (3 - self.top)

    def fit(self, need):
        new = self.levels(need)
        if any(new[self.n:]):
            return 1
        if not any(new):
            return 4
        for held in map(self.levels, self.needs):
            if all(a <= b for a, b in zip(new, held)) or all(a >= b for a, b in zip(new, held)):
                return 5
        if len(self.needs) >= self.capacity:
            return 6
        self.needs.append(need)

    def total(self, depth, weight, plus, zero):
        total = zero
        for size in range(1, min(depth, len(self.needs)) + 1):
            for choice in combinations(self.needs, size):
                join = [max(ls) for ls in zip(*map(self.levels, choice))]
                total = plus(total, weight(join), 1 if size % 2 else -1)
        return total

    def fixed(self, depth):
        def weight(join):
            w = 2 ** (6 * (8 - self.n))
            for i in range(self.n):
                w *= self.chance(i, join[i])
            return w
        return signed(self.total(depth, weight, lambda t, w, s: t + s * w, 0))

    def polynomial(self, depth):
        def add(t, power, s):
            t = list(t)
            if power <= 24:
                t[power] += s
            return t
        return [signed(c) for c in self.total(depth, lambda join: sum(join[: self.n]), add, [0] * 25)]

    def count(self, depth):
        def weight(join):
            w = 1
            for i in range(self.n):
                w *= self.top + 1 - join[i]
            return w
        return self.total(depth, weight, lambda t, w, s: t + s * w, 0) % WORD

    def ends(self, depth):
        if depth >= len(self.needs):
            return self.fixed(depth), self.fixed(depth)
        totals = {j: self.fixed(j) for j in range(1, depth + 1)}
        return max([0] + [t for j, t in totals.items() if j % 2 == 0]), min([CERTAIN] + [t for j, t in totals.items() if j % 2 == 1])

    def judge(self, depth, threshold):
        low, high = self.ends(depth)
        bound = threshold * 2 ** 33
        return "sound" if low >= bound else "attention" if high < bound else "undecided"


def read(data, sheet):
    at, record, threshold = 0, 0, None
    number = lambda a, b: int.from_bytes(data[a:b], "big")
    width = 2 if sheet.kind == "plain" else 4
    while True:
        left = len(data) - at
        if left < 2:
            raise Fault(13, record, at)
        mark = bytes(data[at:at + 2])
        if mark not in ((b"TS",) if record == 0 else (b"WT", b"ND", b"EN")):
            raise Fault(12, record, at)
        length = {b"TS": 6, b"WT": 3 + 2 * sheet.top, b"ND": 2 + width, b"EN": 2}[mark]
        if left < length:
            raise Fault(13, record, at)
        why = None
        if mark == b"TS":
            threshold = number(at + 4, at + 6)
            if data[at + 2] != (1 if sheet.kind == "plain" else 2):
                why = 12
            else:
                why = sheet.size(data[at + 3]) or (9 if threshold > 32768 else None)
        elif mark == b"WT":
            why = sheet.set(data[at + 2], [number(at + 3 + 2 * k, at + 5 + 2 * k) for k in range(sheet.top)])
        elif mark == b"ND":
            why = sheet.fit(number(at + 2, at + 2 + width))
        elif left > 2:
            raise Fault(14, record + 1, at + 2)
        else:
            return threshold
        if why:
            raise Fault(why, record, at)
        at, record = at + length, record + 1


def report(data):
    def fault(number, record, byte):
        return f"fault {number} {'reader' if number >= 12 else 'sheet'} {record} {byte}\n"
    if len(data) > 4096:
        return fault(14, 0, 4096)
    sheet = Sheet("graded" if len(data) > 2 and data[2] == 2 else "plain")
    try:
        threshold = read(data, sheet)
    except Fault as e:
        return fault(*e.told)
    lines = [f"sheet {sheet.kind} {sheet.n} {threshold}"]
    last = max(1, len(sheet.needs))
    for depth in range(1, last + 1):
        low, high = sheet.ends(depth)
        lines.append(f"depth {depth} {low // 2 ** 16} {-(-high // 2 ** 16)} {sheet.judge(depth, threshold)}")
    lines.append("poly " + " ".join(map(str, sheet.polynomial(last)[: sheet.n * sheet.top + 1])))
    lines.append(f"states {sheet.count(last)}")
    return "\n".join(lines) + "\n"


def ts(kind, n, t):
    return b"TS" + bytes([kind, n]) + t.to_bytes(2, "big")


def wt(i, *weights):
    return b"WT" + bytes([i]) + b"".join(w.to_bytes(2, "big") for w in weights)


def nd(need, width):
    return b"ND" + need.to_bytes(width, "big")


def generated():
    """Files of every fault, at the edges of length, and random ones, each with a name."""
    a = ts(1, 3, 16384) + wt(0, 48) + wt(1, 32) + wt(2, 32)
    yield "empty-input", b""
    yield "one-byte", b"T"
    yield "lone-byte-behind-head", ts(1, 3, 1) + b"W"
    yield "head-only", ts(1, 3, 1)
    yield "head-cut", b"TS\x01\x03\x40"
    yield "head-cut-with-bad-size", b"TS\x01\x63\x40"
    yield "wrong-first-mark", b"WT\x00\x00\x30"
    yield "kind-3", ts(3, 3, 1) + b"EN"
    yield "kind-0-size-0", ts(0, 0, 40000) + b"EN"
    yield "size-0", ts(1, 0, 40000) + b"EN"
    yield "size-9", ts(1, 9, 1) + b"EN"
    yield "threshold-32769", ts(1, 3, 32769) + b"EN"
    yield "threshold-32768", ts(1, 3, 32768) + b"EN"
    yield "second-head", a + ts(1, 3, 1) + b"EN"
    yield "lower-case-mark", a + b"en"
    yield "weights-cut", a + b"WT\x00\x00"
    yield "need-cut", a + b"ND\x00"
    yield "weights-of-component-3", a + wt(3, 1) + b"EN"
    yield "weights-of-component-3-above-64", a + wt(3, 65) + b"EN"
    yield "weights-above-64", a + wt(0, 65) + b"EN"
    yield "need-of-component-3", a + nd(8, 2) + b"EN"
    yield "need-of-component-15", a + nd(0x8000, 2) + b"EN"
    yield "need-of-nothing", a + nd(0, 2) + b"EN"
    yield "need-covers", a + nd(3, 2) + nd(5, 2) + nd(7, 2) + b"EN"
    yield "need-covered", a + nd(3, 2) + nd(5, 2) + nd(1, 2) + b"EN"
    yield "need-again", a + nd(3, 2) + nd(3, 2) + b"EN"
    pairs = [x | y for x, y in combinations([1 << i for i in range(6)], 2)]
    yield "thirteenth-need", ts(1, 6, 1) + b"".join(nd(p, 2) for p in pairs[:13]) + b"EN"
    yield "thirteenth-need-comparable", ts(1, 6, 1) + b"".join(nd(p, 2) for p in pairs[:12] + [63]) + b"EN"
    yield "byte-behind-end", a + b"EN\x00"
    yield "record-behind-end", a + b"ENEN"
    yield "no-end", a + nd(3, 2)
    yield "weights-twice", a + nd(3, 2) + wt(1, 64) + b"EN"
    yield "weights-missing", ts(1, 2, 1) + nd(3, 2) + b"EN"
    yield "graded-rising", ts(2, 2, 1) + wt(0, 1, 2, 0) + b"EN"
    yield "graded-rising-last", ts(2, 2, 1) + wt(0, 2, 1, 2) + b"EN"
    yield "graded-weights-cut", ts(2, 2, 1) + wt(0, 2, 1, 0)[:-1]
    yield "graded-need-cut", ts(2, 2, 1) + nd(2, 4)[:-1]
    yield "graded-need-of-component-2", ts(2, 2, 1) + nd(16, 4) + b"EN"
    filler = ts(1, 8, 77) + wt(7, 64) * ((4096 - 8) // 5)
    yield "bytes-4096", (filler + b"\x00" * 8)[: 4096 - 2] + b"EN"
    whole = ts(1, 8, 77) + wt(7, 64) * 816 + nd(128, 2) + nd(64, 2)
    yield "bytes-4096-whole", whole + b"EN" if len(whole) == 4094 else ts(1, 8, 77) + wt(7, 64) * 816 + nd(128, 2) + b"EN"
    yield "bytes-4097", b"\x00" * 4097
    yield "bytes-4097-good-front", (filler + b"EN" + b"\x00" * 4097)[:4097]
    rng = random.Random(20)
    for k in range(60):
        graded = k % 2
        n = rng.randint(1, 8)
        top, width, base = (3, 4, 4) if graded else (1, 2, 2)
        data = ts(2 if graded else 1, n, rng.choice([0, 1, 16384, 32768, rng.randint(0, 32768)]))
        for i in range(n):
            if rng.random() < 0.9:
                data += wt(i, *sorted((rng.randint(0, 64) for _ in range(top)), reverse=True))
        wanted = Sheet("graded" if graded else "plain")
        wanted.size(n)
        for _ in range(rng.choice([0, 1, 2, 4, 8, 30])):
            need = sum(rng.choice([0, 0, 1, rng.randint(0, base - 1)]) * base ** i for i in range(n))
            if len(wanted.needs) < 12 and wanted.fit(need) is None:
                data += nd(need, width)
        data += b"EN"
        if rng.random() < 0.2:
            data = data[: rng.randint(0, len(data))]
        elif rng.random() < 0.2:
            at = rng.randrange(len(data))
            data = data[:at] + bytes([rng.randint(0, 255)]) + data[at + 1:]
        yield f"random-{k}", data


def vectors(root):
    files = [(os.path.basename(p), open(p, "rb").read()) for p in sorted(glob.glob(os.path.join(root, "sheets", "*.sheet")))]
    files += list(generated())
    with open(os.path.join(root, "crates/vectors/stdin"), "w") as f:
        for name, data in files:
            f.write(f"{name} {data.hex()}\n")
    with open(os.path.join(root, "crates/vectors/stdout"), "w") as f:
        for name, data in files:
            f.write(f"# {name}\n{report(data)}")


if __name__ == "__main__":
    if sys.argv[1:] == ["vectors"]:
        vectors(os.path.dirname(os.path.dirname(os.path.abspath(__file__))))
    elif len(sys.argv) == 3 and sys.argv[1] == "report":
        sys.stdout.write(report(open(sys.argv[2], "rb").read()))
    else:
        sys.exit(__doc__)
