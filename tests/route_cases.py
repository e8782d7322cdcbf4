#!/usr/bin/env python3
"""Writes the cases of crates/route_cases: the tables and inputs in its data/, its stdin, and what must come out (its stdout). They are the
stored runs of tests/vectors/ (tests/stored.py). Nothing of the library is run. Run it from the repository's root."""
import glob
import os

import stored

CRATE = "crates/route_cases/"
# The room of the program for an input.
INPUT_ROOM = 131072


def read(path):
    with open(path, "rb") as f:
        return f.read()


def write(path, content):
    with open(path, "wb") as f:
        f.write(content)


def main():
    folders = stored.runs()
    os.makedirs(CRATE + "data", exist_ok=True)
    for old in glob.glob(CRATE + "data/*"):
        os.remove(old)
    stdin, stdout = b"", b""
    for i, folder in enumerate(folders):
        given = read(folder + "stdin")
        assert len(given) <= INPUT_ROOM, folder
        write(CRATE + "data/%03d.tsv" % i, read(folder + "table.tsv"))
        write(CRATE + "data/%03d.txt" % i, given)
        stdin += b"%03d.tsv\n%03d.txt\n" % (i, i)
        stdout += read(folder + "expected")
    write(CRATE + "stdin", stdin)
    write(CRATE + "stdout", stdout)


main()
