#!/usr/bin/env python3
"""Tries the table check against a plain search: on many small random tables the answer of the compiled program must be that of a search
over small sets of level values, and each of some wrong checks must be caught. Run it from the repository's root after
`tools/build check_cases`:

    python3 tests/check_search.py [TABLES [SEED]]

The search is written from document 01, over lists of tokens and not over texts. It ends with exit status 1 where anything disagrees."""
import itertools
import os
import random
import subprocess
import sys
import tempfile

PROGRAM = os.path.abspath("target/bin/check_cases")
LABELS = ["a", "b"]
BATCH = 2000


def table_of(rng):
    """A small table: the gateway's domain and path, the D rows and the R rows, as (domain, path)."""
    word = lambda: rng.choice(LABELS)
    domain = lambda: ".".join(word() for _ in range(rng.randrange(0, 3))) or "t"
    under = lambda d: d if rng.random() < 0.5 else word() + "." + d
    path = lambda: ["xy", "p"] + ([rng.choice(["", "a", "b"])] + [word() for _ in range(rng.randrange(0, 3))] if rng.random() < 0.7 else [])
    base = [domain() for _ in range(2)]
    paths = [path() for _ in range(3)]
    d, r = {}, {}
    for _ in range(rng.randrange(0, 5)):
        p, dom = rng.choice(paths), under(under(rng.choice(base)))
        if rng.random() < 0.8:
            d.setdefault(dom, p)
        if rng.random() < 0.8:
            r.setdefault(tuple(p), dom)
    gateway = rng.choice(["gw", under(rng.choice(base)), under(under(rng.choice(base)))])
    return gateway, path(), list(d.items()), [(dom, list(p)) for p, dom in r.items()]


def text_of(table, rng):
    """The table's text, in any letter case."""
    case = lambda s: "".join(rng.choice((c.lower(), c.upper())) for c in s)
    gateway, path, d, r = table
    rows = [("D", row) for row in d] + [("R", row) for row in r]
    rng.shuffle(rows)
    lines = ["G\t" + case(gateway) + "\t" + case("\t".join(path))] + [tag + "\t" + case(dom) + "\t" + case("\t".join(p)) for tag, (dom, p) in rows]
    return "\n".join(lines) + "\n"


def parts(domain):
    return domain.split(".")[::-1]


def longest(rows, query):
    best = None
    for key, value in rows:
        if query[: len(key)] == key and (best is None or len(key) > len(best[0])):
            best = (key, value)
    return best


class Rows:
    def __init__(self, table):
        gateway, _, d, r = table
        self.gateway = parts(gateway)
        self.d = [(parts(dom), p) for dom, p in d]
        self.r = [(p, parts(dom)) for dom, p in r]


def is_part(token):
    return token != "" and "+" not in token


def comes_back(rows, levels):
    """Whether a record with these eight levels, C and ADMD among them, and a surname or a common name comes back."""
    found = longest(rows.r, levels)
    if found is None:
        return True
    n, domain = len(found[0]), list(found[1])
    while n < 8 and is_part(levels[n]):
        n, domain = n + 1, domain + [levels[n]]
    if domain == rows.gateway:
        return False
    row = longest(rows.d, domain)
    if row is None:
        return False
    settled = row[1] + domain[len(row[0]) :]
    named = [""] * n + levels[n:]
    if len(settled) > 8 or any(named[i] for i in range(min(4, len(settled)))):
        return False
    single = [settled[i] if i < len(settled) else named[i] for i in range(4)]
    return single == levels[:4] and settled[4:] + [u for u in named[4:] if u] == [u for u in levels[4:] if u]


def records():
    tokens = [""] + LABELS + ["z"]
    units = [list(us) for n in range(5) for us in itertools.product(LABELS, repeat=n)]
    units += [us for a in tokens[1:] for us in ([a], [a, "z"], ["z", a]) if "z" in us]
    for prmd in tokens + ["z+"]:
        for o in tokens + ["z+"]:
            for us in units:
                yield ["xy", "p", prmd, o] + us + [""] * (4 - len(us))


RECORDS = list(records())


def is_sound(rows):
    return all(comes_back(rows, levels) for levels in RECORDS)


def candidates(rows, wrong):
    """The levels that the check tries, but for what a wrong check leaves out."""
    pad = lambda p: p + [""] * (8 - len(p))
    for path, domain in rows.r[:1] if wrong == "first row alone" else rows.r:
        if len(path) > 2 or wrong == "no fresh PRMD":
            yield pad(path)
        if len(path) == 2 and wrong != "no fresh PRMD":
            yield pad(path + ["0+"])
        if path[2:] == [""] and wrong != "no fresh O":
            yield pad(path + ["0"])
        if wrong == "inverse rows are enough":
            continue
        for target in ([] if wrong == "gateway skipped" else [rows.gateway]) + [key for key, _ in rows.d]:
            front = target[len(domain) :]
            if target[: len(domain)] == domain and front and len(path) + len(front) <= 8:
                yield pad(path + front)


WRONG = ["first row alone", "gateway skipped", "inverse rows are enough", "no fresh PRMD", "no fresh O", "accepts all", "refuses all"]


def checked(rows, wrong=None):
    if wrong in ("accepts all", "refuses all"):
        return wrong == "accepts all"
    return all(comes_back(rows, levels) for levels in candidates(rows, wrong))


def answers(texts):
    """What the program answers for tables."""
    with tempfile.TemporaryDirectory() as folder:
        names = []
        for i, text in enumerate(texts):
            names.append("%d.tsv" % i)
            with open(os.path.join(folder, names[-1]), "w") as f:
                f.write(text)
        out = subprocess.run([PROGRAM], input="".join(n + "\n" for n in names).encode(), stdout=subprocess.PIPE, cwd=folder, check=True)
    return out.stdout.decode().splitlines()


def main():
    count = int(sys.argv[1]) if len(sys.argv) > 1 else 100000
    rng = random.Random(int(sys.argv[2]) if len(sys.argv) > 2 else 7)
    caught = dict.fromkeys(WRONG, 0)
    bad = sound = 0
    for at in range(0, count, BATCH):
        tables = [table_of(rng) for _ in range(min(BATCH, count - at))]
        for table, answer in zip(tables, answers([text_of(t, rng) for t in tables])):
            rows = Rows(table)
            truth = is_sound(rows)
            sound += truth
            if answer != ("0" if truth else "8 lost") or checked(rows) != truth:
                bad += 1
                print("disagrees:", answer, truth, table)
            for wrong in WRONG:
                caught[wrong] += checked(rows, wrong) != truth
    print("%d tables, %d of them sound, %d disagree" % (count, sound, bad))
    for wrong in WRONG:
        print("%s: caught on %d" % (wrong, caught[wrong]))
    sys.exit(1 if bad or not all(caught.values()) else 0)


main()
