#!/usr/bin/env python3
"""Writes the cases of crates/table_cases: its stdin and what must come out (its stdout), for the tables in its data/, and first the
tables there that are made for an edge (edge-*.tsv). It follows document 01, "The table text", by itself, over tests/rules.py, and runs
nothing of the library. The other tables (NNN.tsv) were made by an implementation of document 01 that was written apart from this
one. Run it from the repository's root."""
import functools
import glob
import os
import random
import re

import rules

DATA = "crates/table_cases/data/"
_PART = re.compile(rb"[A-Za-z0-9]([A-Za-z0-9-]{0,61}[A-Za-z0-9])?")
KEYS = ["C", "ADMD", "PRMD", "O", "OU", "OU", "OU", "OU"]


def is_domain(domain, longest):
    return len(domain) <= longest and all(_PART.fullmatch(p) for p in domain.split(b"."))


def is_path(fields):
    ok = 2 <= len(fields) <= 8
    return ok and all(rules.keeps_rule(k, f) or (k == "PRMD" and f == b"") for k, f in zip(KEYS, fields))


def row_of(line, tags, longest):
    fields = line.split(b"\t")
    if len(fields) < 2 or fields[0] not in tags:
        return None
    domain, path = fields[1], fields[2:]
    if not is_domain(domain, longest) or not is_path(path):
        return None
    return fields[0], domain, path


@functools.lru_cache(maxsize=None)
def load(text):
    """The number of the first bad line, or (gateway row, D rows, R rows)."""
    if len(text) > 65536:
        return 0
    lines = text.split(b"\n")
    gateway, d, r = None, [], []
    for i, line in enumerate(lines):
        last = i == len(lines) - 1
        if last and line == b"" and i > 0:
            break
        if last:
            return i + 1
        if i == 0:
            gateway = row_of(line, [b"G"], 253)
            if gateway is None:
                return 1
            continue
        row = row_of(line, [b"D", b"R"], 40)
        if i > 512 or row is None:
            return i + 1
        lower = lambda path: [f.lower() for f in path]
        if row[0] == b"D":
            if any(row[1].lower() == q[1].lower() for q in d):
                return i + 1
            d.append(row)
        else:
            if any(lower(row[2]) == lower(q[2]) for q in r):
                return i + 1
            r.append(row)
    return gateway, d, r


def longest_domain(rows, domain):
    """The number of the row with the longest domain that is a tail of a domain by whole parts."""
    parts, best = domain.lower().split(b"."), None
    for i, row in enumerate(rows):
        own = row[1].lower().split(b".")
        if parts[-len(own) :] == own and (best is None or len(own) > best[0]):
            best = (len(own), i)
    return None if best is None else best[1]


def longest_path(rows, levels):
    """The number of the row with the longest path that begins a record's eight levels."""
    best = None
    for i, row in enumerate(rows):
        if [f.lower() for f in row[2]] == [f.lower() for f in levels[: len(row[2])]]:
            if best is None or len(row[2]) > best[0]:
                best = (len(row[2]), i)
    return None if best is None else best[1]


def edges():
    """Tables at the edges of the rules, by name."""
    g = b"G\tgw.survey.test\tXY\t \tSURVEY\n"
    d, r = b"D\ttow.test\tXY\tPORTNET\tTOW\n", b"R\ttow.test\tXY\tPORTNET\tTOW\n"
    yield "empty", b""
    yield "lf", b"\n"
    yield "gateway", g
    yield "small", g + d + r
    yield "unfinished", g + d[:-1]
    yield "unfinished-gateway", g[:-1]
    yield "empty-line", g + b"\n" + d
    yield "small-tags", g.lower() + d
    yield "small-tag", g + d.replace(b"D\t", b"d\t")
    yield "second-gateway", g + g
    yield "two-bad", g + b"X\n" + d + d
    yield "cr", g + d.replace(b"\n", b"\r\n")
    yield "nul", g + d.replace(b"TOW", b"T\0W")
    for name, line in (("d", d), ("r", r), ("g", g)):
        head = b"" if name == "g" else g
        yield "trailing-tab-" + name, head + line.replace(b"\n", b"\t\n")
        yield "two-fields-" + name, head + line.split(b"\t")[0] + b"\tx.test\tXY\tP\n"
        yield "one-field-" + name, head + line.split(b"\t")[0] + b"\tx.test\tXY\n"
        yield "no-field-" + name, head + line.split(b"\t")[0] + b"\tx.test\n"
        yield "no-domain-" + name, head + line.split(b"\t")[0] + b"\n"
    yield "omitted-prmd", g + b"D\tx.test\tXY\tP\t\nR\tx.test\tXY\tP\t\nR\tx.test\tXY\tP\n"
    yield "omitted-admd", g + b"D\tx.test\tXY\t\tQ\n"
    yield "omitted-o", g + b"D\tx.test\tXY\tP\tQ\t\n"
    yield "omitted-then-o", g + b"R\tx.test\tXY\tP\t\tO\n"
    for n in (8, 9):
        fields = [b"XY", b"P", b"Q", b"O", b"u1", b"u2", b"u3", b"u4", b"u5"][:n]
        yield "fields-%d" % n, g + b"R\tx.test\t" + b"\t".join(fields) + b"\n"
    for n in (40, 41):
        yield "domain-%d" % n, g + b"D\t" + b"x" * (n - 5) + b".test\tXY\tP\n"
    for n in (253, 254):
        parts = [b"x" * 63, b"x" * 63, b"x" * 63, b"x" * (n - 5 - 3 * 64)]
        yield "gateway-%d" % n, b"G\t" + b".".join(parts) + b".test\tXY\tP\n"
    for n in (63, 64):
        yield "part-%d" % n, b"G\t" + b"x" * n + b".test\tXY\tP\n"
    yield "same-domain", g + d + d.replace(b"tow", b"TOW")
    yield "same-path", g + r + r.replace(b"tow", b"x").replace(b"PORTNET", b"portnet")
    yield "same-path-other-tag", g + r + d
    yield "same-target", g + r + b"R\ttow.test\tXY\tPORTNET\tOTHER\n"
    yield "row-at-gateway", g + b"D\tgw.survey.test\tXY\tP\n"
    yield "country-digits", g + b"D\tx.test\t123\tP\n"
    yield "country-bad", g + b"D\tx.test\tX1\tP\n"
    for n in (512, 513, 514):
        yield "rows-%d" % n, g + b"".join(b"D\td%d.test\tXY\tP%d\n" % (i, i) for i in range(n))
    yield "rows-513-empty", g + b"".join(b"R\td%d.test\tXY\tP%d\n" % (i, i) for i in range(512)) + b"\n"
    for n in (65536, 65537):
        yield "size-%d" % n, sized(g, n)


def sized(head, size):
    """A table of so many bytes, each row as a row should be."""
    row = lambda i, o, u: b"R\td%03d.test\tXY\tP\tQ%03d\t" % (i, i) + b"o" * o + b"\t" + b"v" * 32 + b"\t" + b"u" * u + b"\n"
    text, i = head, 0
    while size - len(text) > 3 * len(row(0, 64, 32)):
        text, i = text + row(i, 64, 32), i + 1
    text += row(i, 32, 16)
    for o in range(1, 65):
        for u in range(1, 33):
            for v in range(1, 33):
                if len(text) + len(row(i + 1, o, u)) + len(row(i + 2, o, v)) == size:
                    return text + row(i + 1, o, u) + row(i + 2, o, v)


def queries(table, rng):
    """Domains and levels that the rows of a table match, nearly match and do not match."""
    gateway, d, r = table
    names = [row[1] for row in d + r + [gateway]]
    for name in names[:6] + rng.sample(names, min(4, len(names))):
        for q in (name, name.swapcase(), b"x." + name, b"a.b." + name, b"x" + name, name.split(b".", 1)[-1]):
            yield b"D", [q]
    paths = [row[2] for row in r + d + [gateway]]
    for path in paths[:6] + rng.sample(paths, min(4, len(paths))):
        eight = (path + [b""] * 8)[:8]
        more = eight[: len(path)] + [b"q"] * (8 - len(path))
        less = path[:-1] + [b"zz"] + [b""] * (8 - len(path))
        for levels in (eight, [f.swapcase() for f in eight], more, less):
            yield b"R", levels


def main():
    for name, text in edges():
        with open(DATA + "edge-%s.tsv" % name, "wb") as f:
            f.write(text)
    rng = random.Random(5)
    stdin, stdout = b"", b""
    for path in sorted(glob.glob(DATA + "*.tsv")):
        with open(path, "rb") as f:
            table = load(f.read())
        stdin += b"T\t" + os.path.basename(path).encode() + b"\n"
        if isinstance(table, int):
            stdout += b"7 %d\n" % table
            continue
        stdout += b"0 %d %d\n" % (len(table[1]), len(table[2]))
        for kind, fields in queries(table, rng):
            if any(b"\n" in f or b"\t" in f for f in fields):
                continue
            found = longest_domain(table[1], fields[0]) if kind == b"D" else longest_path(table[2], fields)
            stdin += kind + b"\t" + b"\t".join(fields) + b"\n"
            stdout += b"none\n" if found is None else b"%d\n" % found
    for name, content in (("stdin", stdin), ("stdout", stdout)):
        with open("crates/table_cases/" + name, "wb") as f:
            f.write(content)


if __name__ == "__main__":
    main()
