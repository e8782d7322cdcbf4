#!/usr/bin/env python3
"""Runs the example programs of docs/examples/, those that take a table on the tables of tests/examples/, and holds what they write
against what is stored there.

    python3 tests/examples_run.py CHECK_TABLE MAP LIST...

Which witness goes with an unsound table is the library's choice; what is stored is the one that it makes today. Run it from the
repository's root. The first output that differs ends it."""
import difflib
import os
import subprocess
import sys
import tempfile

CHECK_TABLE, MAP, *LISTS = (os.path.abspath(name) for name in sys.argv[1:])
WHERE = "tests/examples/"
done = 0


def read(name):
    with open(name, encoding="utf-8") as f:
        return f.read()


def run(words, expected, status, given="", where=WHERE):
    global done
    out = subprocess.run(words, input=given, stdout=subprocess.PIPE, stderr=subprocess.PIPE, text=True, cwd=where, timeout=60)
    if (out.stdout, out.returncode) != (expected, status):
        print(" ".join(words), f": status {out.returncode}, {status} expected; expected and found:")
        sys.stdout.writelines(difflib.unified_diff(expected.splitlines(True), out.stdout.splitlines(True)))
        sys.exit(1)
    done += 1


def tables_of_any_size():
    """A file is judged whole, however long it is."""
    line = b"G\tgw.test\tXY\tP\n"
    sizes = {0: 1, 65536: 2, 65537: 0, 1 << 20: 0}
    with tempfile.TemporaryDirectory() as where:
        for size, bad in sizes.items():
            with open(where + "/t.tsv", "wb") as f:
                f.write((line + b"\n" * size)[:size])
            found = subprocess.run([CHECK_TABLE, "t.tsv"], stdout=subprocess.PIPE, text=True, cwd=where, timeout=60)
            wanted = f"malformed at line {bad}:" if bad else "malformed: it is over 65,536 bytes"
            if found.returncode != 1 or wanted not in found.stdout.splitlines()[0]:
                sys.exit(f"check_table: a file of {size} bytes: {found.stdout}")


def main():
    run([CHECK_TABLE, "sound.tsv"], "sound.tsv: sound: every record that carries no address itself comes back the same\n", 0)
    run([CHECK_TABLE, "sound.tsv", "malformed.tsv", "repeated.tsv", "unfinished.tsv", "unsound.tsv"], read(WHERE + "check_table.expected"), 1)
    run([CHECK_TABLE, "missing.tsv"], "", 2)
    run([CHECK_TABLE, "."], "", 2)
    run([CHECK_TABLE], "", 2)
    tables_of_any_size()
    for table in ("sound", "malformed", "unsound"):
        run([MAP, table + ".tsv"], read(f"{WHERE}map-{table}.expected"), 0, read(WHERE + "map.stdin"))
    run([MAP, "missing.tsv"], "", 1)
    run([MAP], "", 2)
    for program in LISTS:
        run([program], read(WHERE + "list.expected"), 0)
    print(f"{done} runs of the examples are as they must be")


if __name__ == "__main__":
    main()
