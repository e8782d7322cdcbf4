#!/usr/bin/env python3
"""Writes the cases of crates/list_cases: its stdin and what must come out (its stdout). It follows request 7 by itself, over the rules of
tests/rules.py and tests/table_cases.py, and runs nothing of the library: a look-up is a plain scan over all rows.

    python3 tests/list_cases.py --store          into crates/list_cases/
    python3 tests/list_cases.py STDIN STDOUT     into these two files

Run it from the repository's root. A case is lines, their fields one tab apart:

    T HEX                the text, in hexadecimal; a new list begins
    E NUMBERS            its next entry: kind, place and length of the domain, place and length of the path, one space apart
    L                    loads the list: 7 and the first bad entry, or 0 and how many rows go each way
    D DOMAIN             the number of the D row with the longest domain that is a tail of it, counted from 0 among the D rows, or -
    P LEVELS             the same of the R row with the longest path that begins these eight levels, of which an empty one is absent"""
import random
import sys

from table_cases import is_domain, is_path, longest_domain, longest_path

CRATE = "crates/list_cases/"
G, D, R = b"GDR"
WORD = 1 << 64
LAST = WORD - 1
# The most entries, and standard input, at most.
ENTRIES = 513
ROOM = 2097152


# The rules


def part(text, place, length):
    return text[place : place + length] if place + length <= len(text) else None


def row_of(text, entry, kinds, longest):
    """The row that an entry spells, or None."""
    kind, domain, path = entry[0], part(text, *entry[1:3]), part(text, *entry[3:5])
    if kind not in kinds or domain is None or path is None:
        return None
    fields = path.split(b"\t")
    return (kind, domain, fields) if is_domain(domain, longest) and is_path(fields) else None


def key_of(row):
    """What no two rows of a kind may share."""
    return row[1].lower() if row[0] == D else b"\t".join(row[2]).lower()


def load(text, entries):
    """The number of the first bad entry, or (D rows, R rows)."""
    if not entries or row_of(text, entries[0], [G], 253) is None:
        return 1
    rows, seen = {D: [], R: []}, set()
    for number, entry in enumerate(entries[1:], 2):
        row = row_of(text, entry, [D, R], 40)
        if number > ENTRIES or row is None or (row[0], key_of(row)) in seen:
            return number
        seen.add((row[0], key_of(row)))
        rows[row[0]].append(row)
    return rows[D], rows[R]


# The cases, as they are written


class Cases:
    def __init__(self):
        self.stdin, self.stdout, self.table = [], [], None

    def load(self, text, entries):
        """Loads a list; look-ups after it are under it."""
        self.stdin.append(b"T\t" + bytes(text).hex().encode())
        self.stdin += [b"E\t" + b" ".join(b"%d" % n for n in entry) for entry in entries]
        self.stdin.append(b"L")
        self.table = load(bytes(text), entries)
        found = self.table
        self.stdout.append(b"7 %d" % found if isinstance(found, int) else b"0 %d %d" % (len(found[0]), len(found[1])))

    def answer(self, line, found):
        self.stdin.append(line)
        self.stdout.append(b"-" if found is None else b"%d" % found)

    def domain(self, domain):
        self.answer(b"D\t" + domain, longest_domain(self.table[0], domain))

    def levels(self, levels):
        eight = (list(levels) + [b""] * 8)[:8]
        self.answer(b"P\t" + b"\t".join(eight), longest_path(self.table[1], eight))

    def lookups(self):
        return sum(line[:1] in (b"D", b"P") for line in self.stdin)


class List:
    """A list that is being built: domains and paths are put behind each other, with a byte between them that neither can have, or, shared,
    stand wherever the text has their bytes already."""

    def __init__(self, text=b"", shared=False):
        self.text, self.entries, self.shared = bytearray(text), [], shared

    def put(self, value):
        at = self.text.find(value) if self.shared else -1
        if at < 0:
            at = len(self.text)
            self.text += value + b"\n"
        return at, len(value)

    def add(self, kind, domain, path):
        self.entries.append((kind, *self.put(domain), *self.put(path)))

    def load(self, cases):
        cases.load(self.text, self.entries)


GATEWAY = (G, b"gw.survey.test", b"XY\t \tSURVEY")


def list_of(rows, gateway=GATEWAY, shared=False):
    built = List(shared=shared)
    for row in [gateway, *rows]:
        built.add(*row)
    return built


def both_ways(domain, path):
    return [(D, domain, path), (R, domain, path)]


# Bad entries

PORTS = both_ways(b"tow.test", b"XY\tPORTNET\tTOW") + both_ways(b"hull.test", b"XY\tPORTNET\tHULL")

BAD_KINDS = [0, 1, 10, 67, 69, 70, 72, 81, 83, 100, 103, 114, 255, 256 + D, 256 + G, (1 << 32) + R, (1 << 63) + D, LAST]

BAD_DOMAINS = [b"", b".", b"a.", b".a", b"a..b", b"-a", b"a-", b"a.-b", b"a-.b", b"a_b", b"a b", b" a", b"a\tb", b"a\t", b"a\n", b"\na"]
BAD_DOMAINS += [b"a\0", b"\0", b"a\xff", b"\x80", b"a@b", b"a/b", b"a" * 64, b"a." * 126 + b"bc"]

BAD_PATHS = [b"", b"\t", b"XY", b"XY\t", b"\tP", b"X\tP", b"X1\tP", b"XYZ\tP", b"12\tP", b"1234\tP", b"xy \tP", b"XY\t\tQ", b"XY\tP\tQ\t"]
BAD_PATHS += [b"XY\tP\t\t", b"XY\tP\tQ\tO\t", b"XY\tP\tQ\tO\t\tu", b"\tXY\tP", b"XY\tP\tQ\tO\ta\tb\tc\td\te", b"XY\tP\tQ\tO\ta\tb\tc\td\t", b"XY\t  ", b"XY\tP\t "]
BAD_PATHS += [b"XY\t" + value for value in (b" P", b"P ", b"P  Q", b"P$", b"P_", b"P@", b"P\n", b"\nP", b"P\r", b"P\0", b"P\xe9", b'"P"', b"P;Q")]
BAD_PATHS += [b"XY\t" + b"a" * 17, b"XY\tP\t" + b"a" * 17, b"XY\tP\tQ\t" + b"a" * 65, b"XY\tP\t\tO\t" + b"a" * 33]
BAD_PATHS += [b"XY\tP\tQ\tO\ta\tb\tc\t" + b"a" * 33]


def bad_places(place, length, size):
    """Places and lengths that are not inside a text of this size, or of nothing in it, for one that is."""
    yield from ((size, 0), (size, 1), (size + 1, 0), (size - 1, 2), (size - length + 1, length), (place, size - place + 1), (place, LAST))
    yield from ((LAST, 0), (LAST, 1), (LAST, 2), (LAST, LAST), (LAST, length + 1), (WORD // 2, WORD // 2), (WORD // 2, WORD // 2 + length))
    # sums that wrap to the end of the good part
    yield WORD - length, place + 2 * length
    yield LAST - size, size + 1 + place + length


def at_three_places(cases, spoil):
    """The list of the ports, its first, third and last entry spoilt in turn."""
    for number in (0, 2, 4):
        built = list_of(PORTS)
        built.entries[number] = spoil(built, built.entries[number])
        built.load(cases)


def bad_entries(cases):
    for text in (b"", b"\0", b"G\tgw.survey.test\tXY\tP\n"):
        cases.load(text, [])
    for kind in BAD_KINDS:
        at_three_places(cases, lambda built, entry: (kind, *entry[1:]))
    at_three_places(cases, lambda built, entry: (D if entry[0] == G else G, *entry[1:]))
    at_three_places(cases, lambda built, entry: (R if entry[0] == G else G, *entry[1:]))
    for domain in BAD_DOMAINS:
        at_three_places(cases, lambda built, entry: (entry[0], *built.put(domain), *entry[3:]))
    for path in BAD_PATHS:
        at_three_places(cases, lambda built, entry: (*entry[:3], *built.put(path)))
    # too long for a row, and not for the gateway
    at_three_places(cases, lambda built, entry: (entry[0], *built.put(b"x" * 36 + b".test"), *entry[3:]))
    # of two bad entries the first counts, whatever is bad about them
    for first, second in ((0, 1), (0, 4), (1, 2), (2, 3), (2, 4), (3, 4)):
        for one, other in ((0, 1), (1, 3), (3, 1), (2, 4), (4, 0)):
            built = list_of(PORTS)
            for number, field in ((first, one), (second, other)):
                built.entries[number] = built.entries[number][:field] + (LAST,) + built.entries[number][field + 1 :]
            built.load(cases)
    built = list_of(PORTS)
    for number in (0, 2, 4):
        entry, size = built.entries[number], len(built.text)
        for bad in bad_places(*entry[1:3], size):
            cases.load(built.text, built.entries[:number] + [(entry[0], *bad, *entry[3:])] + built.entries[number + 1 :])
        for bad in bad_places(*entry[3:5], size):
            cases.load(built.text, built.entries[:number] + [(*entry[:3], *bad)] + built.entries[number + 1 :])


def past_the_end(cases):
    """Parts that reach past the text by a byte or more, in texts that end in a good part: behind its text the program has letters, so
    that such a part would keep the rules if it were read."""
    for text, domain, path in (
        (b"XY\tPd.test", (4, 6), (0, 4)),
        (b"d.testXY\tP", (0, 6), (6, 4)),
        (b"XY\tP", (3, 1), (0, 4)),
        (b"XY\t0", (3, 1), (0, 4)),
    ):
        good = [(kind, *domain, *path) for kind in (G, D, R)]
        cases.load(text, good)
        for number, entry in enumerate(good):
            for more in (1, 2, 8, LAST - len(text)):
                for bad in (
                    (entry[0], domain[0], len(text) - domain[0] + more, *path),
                    (entry[0], len(text) - 1 + more, 1, *path),
                    (*entry[:3], path[0], len(text) - path[0] + more),
                    (entry[0], 0, len(text) + more, *path),
                    (*entry[:3], 0, len(text) + more),
                    (entry[0], LAST, more + 1, *path),
                ):
                    cases.load(text, good[:number] + [bad] + good[number + 1 :])


def repeated_rows(cases):
    """The later of two rows with one domain, or one path, is bad; and rows that only look as if they had."""
    again = both_ways(b"TOW.Test", b"xy\tPortnet\ttow")
    other = both_ways(b"brack.tow.test", b"XY\tPORTNET\tTOW\tbrack")
    for rows in (
        PORTS + again[:1],
        PORTS + again[1:],
        again[:1] + PORTS,
        [PORTS[1], again[1]] + PORTS,
        PORTS + [(D, b"TOW.TEST", b"XY\tP"), (D, b"a_b", b"XY\tP")],
        PORTS + [(R, b"x.test", b"xy\tPORTNET\ttow")],
        # good ones
        PORTS + other,
        [(D, b"tow.test", b"XY\tP"), (D, b"hull.test", b"XY\tP")],
        [(R, b"tow.test", b"XY\tP"), (R, b"tow.test", b"XY\tP\t"), (R, b"TOW.test", b"XY\tP\t\tO")],
        [(D, b"gw.survey.test", b"XY\t \tSURVEY"), (R, b"gw.survey.test", b"XY\t \tSURVEY")],
    ):
        list_of(rows).load(cases)
    # one entry twice
    built = list_of(PORTS)
    for number in (1, 2):
        cases.load(built.text, built.entries + built.entries[number : number + 1])


def bounds(cases):
    """Rows at the bounds of the rules, which are good, and just past the longest domains, which are not."""
    longest = b"\t".join([b"124", b"a" * 16, b"b" * 16, b"c" * 64, b"d" * 32, b"e" * 32, b"f" * 32, b"g" * 32])
    signs = b"XY\t'+,-./:=?()\tA B C\t(0) 9"
    for path in (b"XY\t ", b"XY\tP\t", b"XY\tP\t\tO", b"xy\t \tQ", longest, signs):
        list_of(both_ways(b"tow.test", path)).load(cases)
        list_of([], (G, b"gw.test", path)).load(cases)
    for length in (39, 40, 41):
        list_of([(D, b"x" * (length - 5) + b".test", b"XY\tP")]).load(cases)
        list_of([(R, b"x" * (length - 5) + b".test", b"XY\tP")]).load(cases)
    for length in (252, 253, 254):
        parts = [b"x" * 63, b"y" * 63, b"z" * 63, b"w" * (length - 5 - 3 * 64), b"test"]
        list_of(PORTS, (G, b".".join(parts), b"XY\tP")).load(cases)


def many_entries(cases):
    """Entry 514 is bad whatever it holds, unless an earlier one is; what follows it is not looked at."""
    built = list_of([row for i in range(300) for row in ((D, b"d%d" % i, b"XY\tP"), (R, b"d", b"XY\tP\t%d" % i))], shared=True)
    good, bad, text = built.entries, (0, LAST, LAST, LAST, LAST), built.text
    cases.load(text, good[:512])
    cases.load(text, good[:513])
    for domain in (b"d0", b"x.d255", b"d256", b"d2555"):
        cases.domain(domain)
    for prmd in (b"0", b"255", b"256", b"2", b""):
        cases.levels([b"XY", b"P", prmd, b"O"])
    for entries in (
        good[:514],
        good,
        good[:513] + [bad],
        good[:513] + [good[5], bad, bad],
        good[:512] + [bad] + good[513:515],
        good[:512] + [good[511], bad],
        good[:299] + [bad] + good[300:514],
        [bad] + good[1:514],
    ):
        cases.load(text, entries)


def places(cases):
    """Places that overlap and are shared, and other bytes about them."""
    domains, paths = b"d.c.b.a.test", b"XY\tP\tQ\tO\tu1\tu2\tu3\tu4"
    text = domains + paths
    end = len(domains)
    ends = [i for i in range(len(paths) + 1) if paths[i : i + 1] in (b"\t", b"")][1:]
    starts = [0, 2, 4, 6, 8]
    entries = [(G, 0, end, end, ends[-1])]
    entries += [(D, start, end - start, end, ends[i]) for i, start in enumerate(starts)]
    entries += [(R, starts[i % 5], end - starts[i % 5], end, to) for i, to in enumerate(ends)]
    cases.load(text, entries)
    for domain in (b"test", b"x.test", b"A.test", b"x.b.a.test", b"e.d.c.b.a.test", b"c.c.b.a.test", b"est"):
        cases.domain(domain)
    for n in range(9):
        cases.levels((paths.split(b"\t")[:n] + [b"zz"])[:8])
    # a domain in the midst of a path, and a path that ends where the text does
    cases.load(b"XY\tgw-1.x\tQ", [(G, 3, 6, 0, 11), (D, 3, 4, 0, 11), (R, 8, 1, 0, 9), (R, 10, 1, 0, 10)])
    cases.levels([b"XY", b"GW-1.X"])
    cases.levels([b"XY", b"gw-1.x", b"Q"])
    around = bytes(range(256))
    built = List(around)
    for row in [GATEWAY, *PORTS]:
        built.text += around
        built.add(*row)
    built.text += around
    built.load(cases)
    cases.domain(b"brack.Tow.test")
    cases.levels([b"XY", b"PORTNET", b"HULL", b"brack"])


def long_texts(cases):
    """The 65,536 bytes bound the text of a table alone: a list's text may be longer, and so may what it spells."""
    rng = random.Random(1)
    built = list_of(PORTS[:2])
    built.text += rng.randbytes(65536)
    for row in PORTS[2:]:
        built.add(*row)
    built.load(cases)
    cases.domain(b"brack.hull.test")
    cases.levels([b"XY", b"PORTNET", b"HULL"])
    # at the bound and just past it, and a bad entry in a text past it: the number beside 7 is never 0
    for size, last in ((65536, b"XY\tP"), (65537, b"XY\tP"), (65537, b"XY\tP\tQ\t")):
        text = b"gw.test" + b"\0" * (size - 7 - len(last)) + last
        path = size - len(last), len(last)
        cases.load(text, [(G, 0, 7, size - len(last), 4), (D, 0, 7, *path), (R, 3, 4, *path)])
    # a small text that spells more than 65,536 bytes: domains of 39, and paths of up to 234
    path = b"\t".join([b"124", b"A" * 16, b"b" * 16, b"c" * 64, b"D" * 32, b"e" * 32, b"f" * 32])
    text = path + b"\t" + b"g" * 32 + b"".join(b"%03d." % i for i in range(1000)) + b"x" * 40
    names = len(path) + 33
    entries = [(G, names, 3, 0, len(path))]
    entries += [(D, names + 4 * i, 39, 0, len(path) + 33) for i in range(256)]
    entries += [(R, names + 4 * i, 39, 0, 6 + i) for i in range(14)]
    cases.load(text, entries)
    cases.domain(b"a" + text[names : names + 39])
    cases.domain(b"a." + text[names : names + 39])
    cases.levels(path.lower().split(b"\t"))


# Look-ups


def keys_of(text):
    """Keys that stand between bars, each its tokens one space apart in the order of a search: a domain's parts from the right, a path's
    fields, of which `-` is empty and `_` a space."""
    return [key for line in text.split("\n") for key in line.strip().split(" | ") if key]


DOMAIN_ROWS = keys_of(
    """
    test | test a | test a b | test a-b c | test a b c d e | test ab a | test b a a | test b a b a | test b a b b a | 0 | x 0 | zz
    """
)
DOMAINS = keys_of(
    """
    test c | test a c | test a b | test a b b | test a b zz | test a b c | test a b c d | test a b c d e f | test a b c d f | test ab
    test a-b | test a-b c | test a-b d | test a-c | test a1 | test a_b | test a+b | test ab b | test aa | test A B C | test b | test b a
    test b a b | test b a b b | test b a b b b | test b a b c | test b b | TEST b a A x | test b a a a | tes | test1 | tesu | a | x | x 0
    x 1 | x 0 0 | 0 | 0 a | 00 | zz | zz a | zzz | zy | ! | ~ | test ! | test ~ | test { a | test ^
    """
)
PATH_ROWS = keys_of(
    """
    XY P | XY P - | XY P - O | XY P Q | XY P Q O | XY P Q O u1 u2 | XY P Q O u1 u2 u3 u4 | XY P Q_R | XY P Q' a | XY P Q( a | XY P QA
    XY P Q+R O | XY _ | XY _ - O | 124 P | 124 P q o | XZ P - x | XZ P a b | XZ P b b b a | XZ P b b a
    """
)
PATHS = keys_of(
    """
    XY | XY P | xy p | XY P - | XY P - P | XY P - O u1 | XY P - O O O | XY P - - u1 | XY P - A | XY P q | XY P Q N | XY P Q P
    XY P Q O u1 | XY P Q O u1 u2 | XY P Q O u1 u2 u3 | XY P Q O U1 u2 u3 u4 | XY P Q O u1 u2 u4 | XY P Q O u1 u1 u1 | XY P Q O u2
    XY P Q_R | XY P Q_R O | XY P Q_S | XY P Q' a | XY P Q' b | XY P Q' | XY P Q) | XY P Q( b | XY P Q( a x | XY P Q+R | XY P Q+R O
    XY P Q+R P | XY P Q, | XY P QA O | XY P qb | XY P QAA | XY PP | XY P_P | XY P' | XY O | XY Q | XY _ | XY _ - O x | XY _ - N | XY _ Q
    XY 0 | 124 P | 124 P Q | 124 P q o u | 124 P q n | 124 P q p | 125 P | 123 P | XZ P | XZ P x | XZ P a | XZ P a c | XZ P b b
    XZ P b b b | XZ P b b b b | XZ P b b a b | XX P | YX P | AA P Q | - P Q | - -
    """
)


def parts_of(key):
    return b".".join(reversed(key.encode().split()))


def fields_of(key):
    return [b"" if field == "-" else field.replace("_", " ").encode() for field in key.split()]


def near_domains(cases):
    """Rows of which the one before a domain in order is often not the one that is its tail."""
    rows, queries = [parts_of(key) for key in DOMAIN_ROWS], [parts_of(key) for key in DOMAINS]
    # what no address has for a domain: any bytes are parted at dots
    queries += [b"", b".", b".test", b"test.", b"a..test", b"..a.test", b"x.a.test.", b"a test", b"-.test", b"a-.test"]
    for order in (rows, rows[::-1], sorted(rows), [row.upper() for row in rows[5:] + rows[:5]]):
        list_of([(D, row, b"XY\tP") for row in order]).load(cases)
        for query in queries:
            cases.domain(query)


def chain_domains(cases):
    """A look-up that goes back a part at a time, to a row far before."""
    keys = ["t"] + ["t" + " b" * n + " a" for n in range(1, 18)]
    for own in (keys, keys[1:], keys[2:]):
        list_of([(D, parts_of(key), b"XY\tP") for key in own]).load(cases)
        for n in range(1, 20):
            cases.domain(parts_of("t" + " b" * n))
            cases.domain(parts_of("t" + " b" * n + " c"))
            cases.domain(parts_of("t" + " b" * n + " a x"))


def near_paths(cases):
    """The same for paths, with PRMD omitted and named, and values that differ in a byte below the letters."""
    rows = [b"\t".join(fields_of(key)) for key in PATH_ROWS]
    for order in (rows, rows[::-1], sorted(rows), [row.swapcase() for row in rows[7:] + rows[:7]]):
        list_of([(R, b"tow.test", row) for row in order]).load(cases)
        for query in PATHS:
            cases.levels(fields_of(query))


def chain_paths(cases):
    """The same as for domains: back a level at a time, with PRMD named and omitted."""
    for prmd in (b"b", b""):
        whole = [b"XY", b"b", prmd, b"b", b"b", b"b", b"b", b"b"]
        paths = [whole[:2]] + [whole[:n] + [b"a"] for n in range(2, 8)]
        for own in (paths, paths[1:], [whole[:3]] + paths[2:]):
            list_of([(R, b"tow.test", b"\t".join(path)) for path in own]).load(cases)
            for n in range(2, 9):
                cases.levels(whole[:n])
                cases.levels(whole[: n - 1] + [b"c"])
                cases.levels(whole[: n - 1] + [b"a", b"x"])


LABELS = [b"a", b"b", b"ab", b"a-b", b"A", b"b1", b"0", b"zz", b"aB", b"a1"]
ATOMS = LABELS + [b"a_b", b"a+", b"!", b"~", b"a-", b"{", b"_", b"a'"]
VALUES = [b"a", b"B", b"AB", b"a b", b"a'", b"(a)", b"a+b", b"a-b", b"b", b"a.b", b"0", b"a=", b"A B"]
COUNTRIES = [b"XY", b"xy", b"XZ", b"124"]
SIZES = [1, 2, 3, 4, 5, 7, 8, 9, 12, 15, 16, 17, 31, 33, 63, 65, 128, 200, 255, 257, 511, 512]


def some_domain(rng, labels, deepest):
    return b".".join(rng.choice(labels) for _ in range(rng.randint(1, deepest)))


def some_value(rng, level):
    if level == 0:
        return rng.choice(COUNTRIES)
    if level == 2 and rng.random() < 0.4:
        return b""
    return b" " if level == 1 and rng.random() < 0.2 else rng.choice(VALUES)


def some_path(rng, longest):
    return [some_value(rng, level) for level in range(rng.randint(2, longest))]


def some_rows(rng, count, ways):
    """So many rows of which no two are of one kind and key."""
    rows, seen = [], set()
    while len(rows) < count:
        row = (rng.choice(ways), some_domain(rng, LABELS, 5), some_path(rng, 8))
        if (row[0], key_of(row)) not in seen:
            seen.add((row[0], key_of(row)))
            rows.append(row)
    return rows


def cased(rng, text):
    return rng.choice([text, text, text.swapcase(), text.upper(), text.lower()])


def domain_near(rng, rows):
    """A domain below a row's, beside it, or of its own."""
    own = rng.choice(rows)[1] if rows and rng.random() < 0.8 else some_domain(rng, ATOMS, 5)
    parts = own.split(b".")
    if rng.random() < 0.5:
        parts = parts[rng.randint(0, len(parts) - 1) :]
    parts = [rng.choice(ATOMS) for _ in range(rng.randint(0, 3))] + parts
    return cased(rng, b".".join(parts))


def levels_near(rng, rows):
    own = rng.choice(rows)[2] if rows and rng.random() < 0.8 else some_path(rng, 8)
    own = own[: rng.randint(2, len(own))] if rng.random() < 0.5 else own
    own = own + [some_value(rng, level) for level in range(len(own), rng.randint(len(own), 8))]
    return [cased(rng, value) for value in own]


def random_rows(cases):
    rng = random.Random(7)
    for size in SIZES:
        for ways in ([D], [R], [D, R]):
            rows = some_rows(rng, size, ways)
            if size > 100:
                rows.sort(key=key_of, reverse=rng.random() < 0.5)
            if ways == [D, R] and size > 20:
                rng.shuffle(rows)
            shared = size > 100 or rng.random() < 0.5
            list_of([(kind, domain, b"\t".join(path)) for kind, domain, path in rows], shared=shared).load(cases)
            for _ in range(40):
                if D in ways:
                    cases.domain(domain_near(rng, rows))
                if R in ways:
                    cases.levels(levels_near(rng, rows))


LOADS = [past_the_end, bad_entries, repeated_rows, bounds, many_entries, places, long_texts]
FAMILIES = LOADS + [near_domains, chain_domains, near_paths, chain_paths, random_rows]


def main():
    names = {1: [CRATE + "stdin", CRATE + "stdout"], 2: sys.argv[1:]}.get(len(sys.argv) - 1)
    if names is None or (len(sys.argv) == 2 and sys.argv[1] != "--store"):
        sys.exit("usage: list_cases.py --store | list_cases.py STDIN STDOUT")
    cases = Cases()
    for family in FAMILIES:
        family(cases)
    for name, lines in zip(names, (cases.stdin, cases.stdout)):
        with open(name, "wb") as f:
            f.write(b"".join(line + b"\n" for line in lines))
    size = sum(len(line) + 1 for line in cases.stdin)
    assert size <= ROOM, f"{size} bytes of standard input"
    print(f"{cases.stdin.count(b'L')} lists, {cases.lookups()} look-ups, {size} bytes")


if __name__ == "__main__":
    main()
