#!/usr/bin/env python3
"""Writes the cases of crates/record_cases (its stdin) and what must come out (its stdout).

It follows document 01, "The record", and request 12 by itself, in plain Python over lists, and runs nothing of the library. Run it from
the repository's root after a change to the cases; `git diff` then shows what moved."""
import itertools
import random
import re

import rules
from rules import ATOM, PRINTABLE, is_text, well_spaced

LETTERS = b"ABCDEFGHIJKLMNOPQRSTUVWXYZabcdefghijklmnopqrstuvwxyz"
DIGITS = b"0123456789"
LABEL = LETTERS + DIGITS + b"-"
SINGLE = "caponsgiq"
KEY = {"c": "C", "a": "ADMD", "p": "PRMD", "o": "O", "n": "CN", "s": "S", "g": "G", "i": "I", "q": "GQ", "u": "OU"}
ROOM = {"single": 64, "u": 32, "type": 8, "value": 128}
# The bytes of a line, at most.
TEXT = 512
LARGEST = 2**64 - 1


def keeps_rule(kind, s):
    return rules.keeps_rule(KEY[kind], s)


def is_dd(kind, value):
    return is_text(kind) and len(kind) <= 8 and is_text(value) and len(value) <= 128


class Record:
    """A record struct: each text a length and the bytes of its room."""

    def __init__(self):
        self.single = [[0, bytes(ROOM["single"])] for _ in SINGLE]
        self.unit_count, self.units = 0, [[0, bytes(ROOM["u"])] for _ in range(4)]
        self.dd_count, self.dds = 0, [[[0, bytes(ROOM["type"])], [0, bytes(ROOM["value"])]] for _ in range(4)]

    def add(self, kind, value):
        k = SINGLE.index(kind)
        if not keeps_rule(kind, value) or self.single[k][0] != 0:
            return 4
        self.single[k] = [len(value), value.ljust(ROOM["single"], b"\0")]
        return 0

    def add_unit(self, value):
        if not keeps_rule("u", value) or self.unit_count >= 4:
            return 4
        self.units[self.unit_count] = [len(value), value.ljust(ROOM["u"], b"\0")]
        self.unit_count += 1
        return 0

    def add_dd(self, kind, value):
        if not is_dd(kind, value) or self.dd_count >= 4:
            return 4
        self.dds[self.dd_count] = [[len(kind), kind.ljust(8, b"\0")], [len(value), value.ljust(128, b"\0")]]
        self.dd_count += 1
        return 0

    def texts(self):
        cut = lambda t: t[1][: t[0]]
        singles = [cut(t) for t in self.single]
        units = [cut(t) for t in self.units[: self.unit_count]]
        dds = [(cut(t), cut(v)) for t, v in self.dds[: self.dd_count]]
        return singles, units, dds

    def in_range(self):
        return (
            all(n <= len(b) for n, b in self.single)
            and self.unit_count <= 4
            and self.dd_count <= 4
            and all(n <= len(b) for n, b in self.units[: self.unit_count])
            and all(n <= len(b) for d in self.dds[: self.dd_count] for n, b in d)
        )

    def canonical(self):
        singles, units, dds = self.texts()
        a = dict(zip(SINGLE, singles))
        return (
            self.in_range()
            and a["c"] != b""
            and a["a"] != b""
            and all(v == b"" or keeps_rule(k, v) for k, v in a.items())
            and all(keeps_rule("u", v) for v in units)
            and all(is_dd(t, v) for t, v in dds)
            and (a["s"] != b"" or (a["g"] == b"" and a["i"] == b"" and a["q"] == b""))
            and (a["s"] != b"" or a["n"] != b"" or dds != [])
        )

    def same(self, other):
        mine, theirs = self.texts(), other.texts()
        lower = lambda ts: [t.lower() for t in ts]
        return (
            lower(mine[0]) == lower(theirs[0])
            and lower(mine[1]) == lower(theirs[1])
            and [(t.lower(), v) for t, v in mine[2]] == [(t.lower(), v) for t, v in theirs[2]]
        )

    def levels(self):
        singles, units, _ = self.texts()
        return [(self.single[k][1], singles[k]) for k in range(4)] + [
            ((u + bytes(64))[:64], u) for u in (units + [b""] * 4)[:4]
        ]


def shown(room, text):
    """A text, and how many bytes past it are not 0."""
    return text + b"|" + str(sum(1 for b in room[len(text) :] if b)).encode()


def dump(record):
    cut = lambda t: shown(t[1], t[1][: t[0]])
    values = b"".join(cut(t) for t in record.single) + b"".join(shown(*level) for level in record.levels())
    counts = b"%d%d" % (min(record.unit_count, 4), min(record.dd_count, 4))
    lists = b"".join(cut(u) + cut(t) + cut(v) for u, (t, v) in zip(record.units, record.dds))
    return values + counts + lists


class Cases:
    def __init__(self):
        self.stdin, self.stdout = bytearray(), bytearray()
        self.begin()

    def begin(self):
        self.record, self.kept = Record(), Record()
        self.commands, self.kept_commands = b"", b""

    def line(self, letter, text):
        """A line of the input: a letter, and bytes in hexadecimal."""
        assert len(text) <= TEXT
        self.stdin += b"%s%s\n" % (letter.encode(), text.hex().encode())

    def command(self, letter, number, text):
        """A command: its length, a letter, a number in four digits, and bytes."""
        self.commands += b"%04d%s%04d%s" % (5 + len(text), letter.encode(), number, text)

    def byte(self, b):
        self.line("b", bytes([b]))
        self.stdout += b"".join(b"1" if b in chars else b"0" for chars in (LETTERS, DIGITS, PRINTABLE, ATOM, LABEL))
        self.stdout += b" %d\n" % (b + 32 if 65 <= b <= 90 else b)

    def add(self, kind, *texts):
        self.command(kind, len(texts[0]) if kind == "d" else 0, b"".join(texts))
        if kind == "u":
            n = self.record.add_unit(*texts)
        elif kind == "d":
            n = self.record.add_dd(*texts)
        else:
            n = self.record.add(kind, *texts)
        self.stdout += str(n).encode()

    def disturb(self, tag, *numbers):
        """Sets a length or a count to what no addition would."""
        value = LARGEST if numbers[-1] == 255 else numbers[-1]
        letter, place = {"L": ("L", 0), "M": ("M", 0), "U": ("M", 4), "T": ("T", 0), "V": ("T", 4), "D": ("T", 8)}[tag]
        self.command(letter, min(value, 9999), bytes([place + (numbers[0] if len(numbers) == 2 else 0)]))
        r = self.record
        if tag == "L":
            r.single[numbers[0]][0] = value
        elif tag == "M":
            r.units[numbers[0]][0] = value
        elif tag == "T":
            r.dds[numbers[0]][0][0] = value
        elif tag == "V":
            r.dds[numbers[0]][1][0] = value
        elif tag == "U":
            r.unit_count = value
        else:
            r.dd_count = value

    def keep(self):
        self.kept, self.record = self.record, Record()
        self.kept_commands, self.commands = self.commands, b""

    def end(self):
        self.line("r", b"%04d" % len(self.kept_commands) + self.kept_commands + self.commands)
        flags = b"%d%d" % (self.record.canonical(), self.record.same(self.kept))
        self.stdout += b" " + flags + b" " + dump(self.record) + b"\n"
        self.begin()

    def text(self, s):
        self.line("w", s)
        atoms = all(p != b"" and all(b in ATOM for b in p) for p in s.split(b"."))
        part = bool(re.fullmatch(rb"[A-Za-z0-9]([A-Za-z0-9-]{0,61}[A-Za-z0-9])?", s))
        self.stdout += b"%d%d%d%d\n" % (well_spaced(s), is_text(s), atoms, part)

    def whole(self, *additions):
        for a in additions:
            self.add(*a)
        self.end()


BASE = [("c", b"XY"), ("a", b"PORTNET"), ("s", b"Lee")]
SAMPLE = {
    "c": (b"XY",), "a": (b" ",), "p": (b"TOW",), "o": (b"brack",), "u": (b"Fender Two",), "s": (b"Lee",),
    "g": (b"Ann",), "i": (b"MT",), "q": (b"III",), "n": (b"Night Desk",), "d": (b"FENDER-1", b"Rubber/2=x"),
}


def bounds(c):
    for kind in "aponsgiqu":
        most = rules.BOUND[KEY[kind]]
        for n in (0, 1, most - 1, most, most + 1):
            c.whole(*[a for a in BASE if a[0] != kind], (kind, b"x" * n))
    for country in (b"", b"X", b"XY", b"xy", b"XYZ", b"X1", b"12", b"123", b"1234", b"12X", b"X-", b"  "):
        c.whole(("c", country), *BASE[1:])
    for n in (0, 1, 7, 8, 9):
        c.whole(*BASE, ("d", b"t" * n, b"v"))
    for n in (0, 1, 127, 128, 129, 255):
        c.whole(*BASE, ("d", b"t", b"v" * n))
    c.whole(*BASE, ("d", b"FENDER-1", b"v"))
    c.whole(*BASE, ("d", b"FENDER-10", b"v"))
    for admd in (b" ", b"  ", b" P", b"P ", b"P  Q", b"P Q"):
        c.whole(BASE[0], ("a", admd), BASE[2])


def names(c):
    """What a record needs besides C and ADMD: each choice of CN, S, G, I, GQ and a DD."""
    for n in range(7):
        for kinds in itertools.combinations("nsgiqd", n):
            c.whole(*BASE[:2], *[(kind, *SAMPLE[kind]) for kind in kinds])
    for common in (b"x" * 63, b"x" * 64, b"x" * 65, b"", b" ", b" Desk", b"Desk ", b"Night  Desk", b"Night_Desk", b"n@d", b"d\xe9sk", b"$", b"/=", b"'+,-./:=?()"):
        c.whole(*BASE[:2], ("n", common))
        c.whole(*BASE, ("n", common), ("n", b"Desk"))


def classes(c):
    for b in range(256):
        c.byte(b)


def characters(c):
    for b in range(256):
        c.whole(("p", b"a" + bytes([b]) + b"b"), ("n", b"a" + bytes([b])), ("u", bytes([b])), ("d", bytes([b]), b"v"), ("d", b"t", bytes([b])))
    for s in (b"", b" ", b"a", b" a", b"a ", b"a b", b"a  b", b"a b c", b"a   b", b".", b"a.", b".a", b"a..b", b"a.b", b"a.b.c",
              b"-", b"-a", b"a-", b"a-b", b"a--b", b"x" * 63, b"x" * 64, b"x" * 62 + b"-", b"1", b"a_b", b"A9-z", b"a b.c", b"\xe9"):
        c.text(s)
    rng = random.Random(3)
    for _ in range(200):
        c.text(bytes(rng.choice(b"aB1 .-_@$") for _ in range(rng.randrange(6))))


def orders(c):
    for a in SAMPLE:
        for b in SAMPLE:
            c.whole((a, *SAMPLE[a]), (b, *SAMPLE[b]))
    for a in SAMPLE:
        c.whole((a, *SAMPLE[a]), (a, *[t.swapcase() for t in SAMPLE[a]]))
        c.whole((a, *SAMPLE[a]), (a, *[b"" for _ in SAMPLE[a]]))
    for kind in "ud":
        for n in range(1, 7):
            c.whole(*BASE, *[(kind, *[t[:6] + b"%d" % i for t in SAMPLE[kind]]) for i in range(n)])
    for absent in SAMPLE:
        c.whole(*[(a, *SAMPLE[a]) for a in SAMPLE if a != absent])
        c.whole(*[(a, *SAMPLE[a]) for a in SAMPLE if a not in (absent, "s")])
        c.whole(*[(a, *SAMPLE[a]) for a in SAMPLE if a not in (absent, "s", "d")])
    rng = random.Random(1)
    for _ in range(300):
        additions = []
        for _ in range(rng.randrange(1, 14)):
            kind = rng.choice("caponsgiquuuudddd")
            value = rng.choice([SAMPLE[kind][-1], b"x" * rng.randrange(0, 20), b"A b", b"A  b", b"Z" * 5, b"123", b"QR"])
            additions.append((kind, rng.choice([b"RFC-822", b"t", b"type-too-long"]), value) if kind == "d" else (kind, value))
        c.whole(*additions)


def sameness(c):
    full = [(a, *SAMPLE[a]) for a in SAMPLE] + [("u", b"Second"), ("d", b"b", b"Second")]
    for i in range(len(full)):
        others = [full[:i] + full[i + 1 :]]
        for change in (lambda t: t.swapcase(), lambda t: t[:-1] + b"z", lambda t: t + b"z"):
            for j in range(1, len(full[i])):
                changed = list(full[i])
                changed[j] = change(changed[j])
                others.append(full[:i] + [tuple(changed)] + full[i + 1 :])
        for other in others:
            for a in full:
                c.add(*a)
            c.keep()
            c.whole(*other)
    for kind in "ud":
        pair = [(kind, *[b"one" for _ in SAMPLE[kind]]), (kind, *[b"two" for _ in SAMPLE[kind]])]
        for a in pair:
            c.add(*a)
        c.keep()
        c.whole(*pair[::-1])
    c.keep()
    c.end()


def any_input(c):
    full = [(a, *SAMPLE[a]) for a in SAMPLE] + [("o", b"x" * 64)]
    for tag, places, numbers in (("L", len(SINGLE), (0, 1, 2, 5, 63, 64, 65, 255)), ("M", 4, (0, 1, 31, 32, 33, 255)),
                                 ("T", 4, (0, 1, 7, 8, 9, 255)), ("V", 4, (0, 1, 127, 128, 129, 255))):
        for place in range(places):
            for n in numbers:
                for a in full + [("u", b"y" * 32), ("d", b"12345678", b"z" * 128)]:
                    c.add(*a)
                c.disturb(tag, place, n)
                c.end()
    for tag in "UD":
        for n in (0, 1, 2, 3, 4, 5, 255):
            for a in full:
                c.add(*a)
            c.disturb(tag, n)
            c.add("u", b"after")
            c.add("d", b"after", b"after")
            c.keep()
            for a in full:
                c.add(*a)
            c.end()
    # an O that fills its room and says that it is longer
    for n in (64, 65, 255):
        for a in BASE + [("o", b"x" * 64)]:
            c.add(*a)
        c.disturb("L", 3, n)
        c.add("o", b"again")
        c.end()


def main():
    c = Cases()
    for part in (classes, bounds, names, characters, orders, sameness, any_input):
        part(c)
    for name, content in (("stdin", c.stdin), ("stdout", c.stdout)):
        with open("crates/record_cases/" + name, "wb") as f:
            f.write(content)


main()
