#!/usr/bin/env python3
"""Writes the cases of crates/address_cases (its stdin) and what must come out (its stdout). It follows document 01 and
tests/rules.py, and runs nothing of the library. Run it from the repository's root after a change to the cases."""
import random
import re

from rules import LONGEST_ADDRESS, PRINTABLE, is_atoms

LETTERS = {b"@": b"a", b"%": b"p", b"!": b"b", b'"': b"q", b"_": b"u", b"(": b"l", b")": b"r"}
_QUOTED = re.compile(rb'"((?:[ !#-\[\]-~]|\\[ -~])*)"')
_PART = re.compile(rb"[A-Za-z0-9]([A-Za-z0-9-]{0,61}[A-Za-z0-9])?")


def shape(s):
    """(local part, whether it is quoted, domain), or None."""
    if s[:1] == b'"':
        m = _QUOTED.match(s)
        at = m.end() if m else 0
        ok = bool(m) and s[at : at + 1] == b"@"
    else:
        at = s.find(b"@")
        ok = at >= 0 and is_atoms(s[:at])
    return (s[:at], s[:1] == b'"', s[at + 1 :]) if ok and is_atoms(s[at + 1 :]) else None


def unquote(local, quoted):
    return re.sub(rb"\\(.)", rb"\1", local[1:-1]) if quoted else local


def readable(u):
    spaced = u[:1] != b" " and u[-1:] != b" " and b"  " not in u
    return u != b"" and spaced and all(b in PRINTABLE or b == 36 for b in u)


def code(s):
    out, after = b"", False
    for i in range(len(s)):
        c = s[i : i + 1]
        if c in LETTERS:
            out += b"(" + LETTERS[c] + b")"
        elif c[0] in PRINTABLE and not (after and c == b" "):
            out += c
        else:
            out += b"(%03d)" % c[0]
        after = c == b" "
    return out


def decode(s):
    out = b""
    while s:
        m = re.match(rb"\(([APBQULRapbqulr])\)", s)
        n = re.match(rb"\(([0-9]{3})\)", s)
        if m:
            out += [k for k, v in LETTERS.items() if v == m.group(1).lower()][0]
            s = s[3:]
        elif n and int(n.group(1)) < 128:
            out += bytes([int(n.group(1))])
            s = s[5:]
        elif s[:1] in (b"(", b")"):
            return None
        else:
            out, s = out + s[:1], s[1:]
    return out


def tail(a, b):
    x, y = a.split(b"."), b.split(b".")
    k = 0
    while k < min(len(x), len(y)) and x[-1 - k].lower() == y[-1 - k].lower():
        k += 1
    return b".".join(x[len(x) - k :]) if k else b""


class Cases:
    def __init__(self):
        self.stdin, self.stdout = bytearray(), bytearray()

    def add(self, command, texts, answer):
        self.stdin += command + b"\t" + b"\t".join(t.hex().encode() for t in texts) + b"\n"
        self.stdout += answer + b"\n"

    def shape(self, s):
        found = shape(s)
        if len(s) > LONGEST_ADDRESS:
            answer = b"2"
        elif found is None:
            answer = b"1"
        else:
            u = unquote(found[0], found[1])
            answer = b"0 %d %d %d " % (len(found[0]), found[1], readable(u)) + u
        self.add(b"S", [s], answer)

    def code(self, s):
        c = code(s)
        self.add(b"C", [s], b"%d " % len(c) + c[:128])

    def decode(self, s):
        d = decode(s)
        self.add(b"D", [s], b"5" if d is None else b"0 " + d)

    def address(self, u, domain):
        escaped = re.sub(rb'(["\\])', rb"\\\1", u)
        self.add(b"Q", [u, domain], (u if is_atoms(u) else b'"' + escaped + b'"') + b"@" + domain)

    def parts(self, s):
        ps = s.split(b".")
        ok = all(_PART.fullmatch(p) for p in ps)
        self.add(b"P", [s], b"%d %d " % (len(ps), ok) + b"".join(p + b"|" for p in reversed(ps)))

    def tail(self, a, b):
        t = tail(a, b)
        self.add(b"T", [a, b], b"%d " % (len(a) - len(t)) + t)


SHAPES = [
    b"a@b", b"a.b@c.d", b'"a b"@c', b'""@b', b'"a".b@c', b'"a"@b', b'"a\\"b"@c', b'"a\\\\"@c', b'"a\\"@c', b'"a\\', b'"a', b'"', b"", b"@", b"a@",
    b"@b", b"a@@b", b"a@b@c", b".a@b", b"a.@b", b"a..b@c", b"a@.b", b"a@b.", b"a@b..c", b"a b@c", b'"a@b"@c', b"a@[1.2.3.4]", b"a@b c", b"a,b@c",
    b'"\x7f"@b', b'"\x1f"@b', b'"\\\x1f"@b', b'"\\ "@b', b'" a"@b', b'"a  b"@c.test', b"jj@seismo.css.gov", b"a@b\n", b"a\\b@c", b"(a)@b", b"a_b@else.test",
    b'"/S=Lee/OU=Fender Two/"@brack.tow.test', b"Ann.Lee@brack.tow.test", b"a\x80@b", b'"a\x80"@b',
]
# Lengths about the longest address, and about the one that it was before common names.
LENGTHS = [2047, 2048, 2049, LONGEST_ADDRESS - 1, LONGEST_ADDRESS, LONGEST_ADDRESS + 1]
# The worked coding examples of documents 000 3.4, 001 3.3.3 and 002 3.4; document 01 overrides the lone parenthesis.
CODES = [b"'a demo.'", b"foo@bar", b'"_%"', b"@", b"(a)", b"~", b"(", b")", b"_", b"!", b"jj@seismo.css.gov", b'"a  b"@c.test', b"a   b", b" ", b"  ",
         b"H.Hildegard@bbn.com", b"/PN=Duval/DD.Title=Manager/@Inria.ATLAS.FR", b"/PN=Duval/DD.Title=Manager/@FR.PTT.Inria"]
DECODES = [b"'a demo.'", b"foo(a)bar", b"(q)(u)(p)(q)", b"(a)", b"(A)", b"(l)a(r)", b"(126)", b"(", b"(l)", b"(128)", b"(127)", b"(000)", b"(12)", b"(1234)",
           b"(097)", b"(x)", b"()", b")", b"a)", b"(a", b"((a)", b"(a))", b"(040)a(041)", b"(040)(a)", b"(999)", b"(a)(b", b"(12a)", b"", b"(032)(032)",
           b"jj(a)seismo.css.gov", b"/PN=Duval/DD.Title=Manager/(a)Inria.ATLAS.FR",
           b"/PN=Duval/DD.Title=Manager/(a)FR.PTT.Inria", b"(Q)(U)(P)(B)(L)(R)"]
TAILS = [(b"tow.test", b"undertow.test"), (b"brack.tow.test", b"TOW.test"), (b"a.b", b"a.b"), (b"..", b"."), (b"x.", b"y."), (b"", b""), (b"a", b""),
         (b"a", b"b"), (b"x.a.b", b"y.A.B"), (b".a", b"a"), (b"a.", b"a"), (b"\x00.\xff", b"\xff"), (b"a.b.c", b"b.c"), (b"b.c", b"a.b.c")]


def main():
    c = Cases()
    for s in SHAPES:
        c.shape(s)
    for n in LENGTHS:
        for s in (b"x" * (n - 2) + b"@b", b'"' + b"x" * (n - 4) + b'"@b', b"a@" + b"x" * (n - 2), b"@" * n):
            c.shape(s)
    for s in (b"a.b@c.d", b'"a b"@c.d', b'"\\a"@c'):
        for i in range(len(s) + 1):
            for b in range(256):
                c.shape(s[:i] + bytes([b]) + s[i + 1 :])
    for s in CODES + SHAPES[:40] + [bytes([b]) for b in range(128)] + [b" " + bytes([b]) for b in range(128)]:
        c.code(s)
        c.decode(code(s))
    for n in (127, 128, 129):
        c.code(b"a" * n)
        c.code(b"@" + b"a" * (n - 3))
    for s in DECODES:
        c.decode(s)
    rng = random.Random(4)
    for _ in range(400):
        c.decode(bytes(rng.choice(b"(()a01x72)") for _ in range(rng.randrange(9))))
        c.code(bytes(rng.choice(b"a  (@\\_\t$") for _ in range(rng.randrange(9))))
        c.shape(bytes(rng.choice(b'a."@\\ b') for _ in range(rng.randrange(9))))
    for u in [b"a", b"a.b", b"a b", b"", b'"', b"\\", b'a"b\\c', b".a", b"a..b", b"/S=Lee/", b"a@b"] + [bytes([b]) for b in range(32, 127)]:
        c.address(u, b"c.test")
    for s in [b"", b".", b"a", b"a.b", b"a..b", b"tow.test", b"-a.b", b"a.b-", b"x" * 63 + b".y", b"x" * 64 + b".y", b"a_b.c", b"a.b."]:
        c.parts(s)
    for a, b in TAILS:
        c.tail(a, b)
    for _ in range(300):
        text = lambda: bytes(rng.choice(b"aAb..") for _ in range(rng.randrange(8)))
        c.tail(text(), text())
        c.parts(text())
    for name, content in (("stdin", c.stdin), ("stdout", c.stdout)):
        with open("crates/address_cases/" + name, "wb") as f:
            f.write(content)


if __name__ == "__main__":
    main()
