#!/usr/bin/env python3
"""Writes the cases of crates/check_cases: the tables in its data/, its stdin, and what must come out (its stdout). They are the stored
checks of tests/vectors/ (tests/stored.py), and tables named here, whose answers are document 01's own ("What comes back", "Errors that look
right", "Shutting out empty work"). Nothing of the library is run. Run it from the repository's root."""
import base64
import glob
import json
import os

import stored

CRATE = "crates/check_cases/"
GATEWAY = b"G\tgw.survey.test\tXY\t \tSURVEY\n"
ROWS = b"D\ttow.test\tXY\tPORTNET\tTOW\nR\ttow.test\tXY\tPORTNET\tTOW\n"
PAIR = b"".join(tag + b"\tx.test\tXY\tP\n" + tag + b"\tq.x.test\tXY\tP\t\tQ\n" for tag in (b"D", b"R"))
NAMED = [
    ("orroute", GATEWAY + ROWS, "0"),
    ("gateway-alone", GATEWAY, "0"),
    ("inverse-pair", GATEWAY + PAIR, "8 lost"),
    # the domain q.x.test of a record under the row is the gateway's own
    ("gateway-under-row", b"G\tq.x.test\tXY\tP\tSURVEY\nD\tx.test\tXY\tP\nR\tx.test\tXY\tP\n", "8 lost"),
    # a D row that settles PRMD as omitted, under an R row of two fields
    ("two-fields-omitted", GATEWAY + b"D\tx.test\tXY\tP\t\nR\tx.test\tXY\tP\n", "8 lost"),
    # a D row of two fields, under an R row that omits PRMD
    ("omitted-two-fields", GATEWAY + b"D\tx.test\tXY\tP\nR\tx.test\tXY\tP\t\n", "8 lost"),
    # an R row with no D row
    ("one-way", GATEWAY + b"R\tx.test\tXY\tP\tQ\n", "8 lost"),
    # letter case is no matter
    ("case-aside", GATEWAY + b"D\tTOW.test\txy\tPortnet\ttow\nR\ttow.TEST\tXY\tPORTNET\tTOW\n", "0"),
]


def main():
    for old in glob.glob(CRATE + "data/*.tsv"):
        os.remove(old)
    cases = [(name, table, answer) for name, table, answer in NAMED]
    for i, text in enumerate(stored.lines("checks.jsonl")):
        case = json.loads(text)
        answer = {0: "0", 7: "7 %s" % case["line"], 8: "8 lost"}[case["number"]]
        cases.append(("%03d" % i, base64.b64decode(case["table"]), answer))
    with open(CRATE + "stdin", "w") as f, open(CRATE + "stdout", "w") as g:
        for name, table, answer in cases:
            with open(CRATE + "data/" + name + ".tsv", "wb") as t:
                t.write(table)
            f.write(name + ".tsv\n")
            g.write(answer + "\n")


main()
