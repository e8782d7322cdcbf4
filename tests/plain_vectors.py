#!/usr/bin/env python3
"""Holds the unproved Rust program of docs/src/ against every case of tests/vectors/: the runs, the single calls, the checks' first
bad lines and witnesses, the dates, the mailboxes and the restricted encoding. Needs cargo. Run it from the repository's root; its last line counts
what agrees, and it fails on the first kind that does not."""
import base64
import json
import os
import subprocess
import sys

import stored

SOURCE = "docs/src/"
BUILT = SOURCE + "target/release/"
NAMES = ["C", "ADMD", "PRMD", "O", "S", "G", "I", "GQ", "CN"]


def hexed(text):
    return base64.b64decode(text).hex()


def record_fields(record):
    values = ["-" if record.get(name) is None else hexed(record[name]) for name in NAMES]
    units = "".join(hexed(unit) + "," for unit in record["OU"])
    dds = "".join(hexed(kind) + ":" + hexed(value) + "," for kind, value in record["DD"])
    return "\t".join(values + [units, dds])


def record_text(record):
    """The text of a canonical record, in the order that the rules give."""
    def segment(key, value):
        return b"/" + key + b"=" + base64.b64decode(value).replace(b"/", b"$/").replace(b"=", b"$=")

    def dd(kind, value):
        kind = base64.b64decode(kind)
        if kind.lower() == b"rfc-822":
            return segment(b"RFC-822", value)
        return segment(b"DD." + kind.replace(b"/", b"$/").replace(b"=", b"$="), value)

    out = [dd(kind, value) for kind, value in record["DD"]]
    out += [segment(name.encode(), record[name]) for name in ["CN", "G", "I", "S", "GQ"] if record.get(name) is not None]
    out += [segment(b"OU", unit) for unit in reversed(record["OU"])]
    out += [segment(name.encode(), record[name]) for name in ["O", "PRMD", "ADMD", "C"] if record[name] is not None]
    return b"".join(out) + b"/"


def map_case(case):
    """The call of one case of maps.jsonl, and its answer."""
    if case["fn"] == "tail":
        return f"tail\t{hexed(case['a'])}\t{hexed(case['b'])}", hexed(case["tail"])
    if case["fn"] == "a2r":
        call = f"a2r\t{hexed(case['table'])}\t{hexed(case['addr'])}"
        done = record_text(case["record"]).hex() if case["number"] == 0 else ""
    else:
        call = f"r2a\t{hexed(case['table'])}\t{case['room']}\t{record_fields(case['record'])}"
        done = hexed(case["text"]) if case["number"] == 0 else ""
    return call, {0: f"0\t{done}", 7: f"7\t{case['line']}"}.get(case["number"], str(case["number"]))


def check_case(case):
    """The call of one case of checks.jsonl, and its answer: the first bad line, or that the witness is one."""
    table = hexed(case["table"])
    if case["number"] == 8:
        return f"witness\t{table}\t{case['witness'].encode().hex()}", "1"
    return f"load\t{table}", f"7\t{case['line']}" if case["number"] == 7 else "0"


def date_case(line):
    """The call of one line of dates.tsv, and its answer."""
    form, text, number, other = line.rstrip("\n").split("\t")
    call = {"U": "u2d", "R": "d2u"}[form]
    return f"{call}\t{text.encode().hex()}", f"0\t{other.encode().hex()}" if number == "0" else number


def mailbox_case(line):
    """The call of one line of mailbox.tsv, and its answer."""
    text, room, number, address, start, length = line.rstrip("\n").split("\t")
    return f"mailbox\t{hexed(text)}\t{room}", f"0\t{hexed(address)}\t{start}\t{length}" if number == "0" else number


def restricted_case(line):
    """The call of one line of restricted.tsv, and its answer."""
    way, text, room, number, other = line.rstrip("\n").split("\t")
    call = {"E": "restrict", "D": "unrestrict"}[way]
    return f"{call}\t{hexed(text)}\t{room}", f"0\t{hexed(other)}" if number == "0" else number


def calls(kind, cases):
    out = subprocess.run([BUILT + "plain-answers"], input="".join(call + "\n" for call, _ in cases), capture_output=True, text=True, check=True)
    answers = out.stdout.split("\n")[:-1]
    wrong = [(call, answer, found) for (call, answer), found in zip(cases, answers) if answer != found]
    if wrong or len(answers) != len(cases):
        print(f"{kind}: {len(wrong)} of {len(cases)} disagree, the first: {wrong[:1]}")
        sys.exit(1)
    return len(cases)


def hold(kind, name, case):
    """Holds the lines of a name's files against the program."""
    return calls(kind, [case(line) for line in stored.lines(name)])


def runs():
    program, folders = os.path.abspath(BUILT + "plain-orroute"), stored.runs()
    for run in folders:
        with open(run + "stdin", "rb") as given, open(run + "expected", "rb") as expected:
            out = subprocess.run([program], stdin=given, capture_output=True, check=True, cwd=run)
            if out.stdout != expected.read():
                print(f"{run}: another output")
                sys.exit(1)
    return len(folders)


def main():
    subprocess.run(["cargo", "build", "--release", "--offline", "--quiet", "--manifest-path", SOURCE + "Cargo.toml"], check=True)
    maps = hold("maps", "maps.jsonl", lambda line: map_case(json.loads(line)))
    checks = hold("checks", "checks.jsonl", lambda line: check_case(json.loads(line)))
    dates = hold("dates", "dates.tsv", date_case)
    mailboxes = hold("mailboxes", "mailbox.tsv", mailbox_case)
    coded = hold("restricted encoding", "restricted.tsv", restricted_case)
    print(f"{runs()} runs, {maps} calls, {checks} checks, {dates} dates, {mailboxes} mailboxes and {coded} texts of the restricted encoding agree")


if __name__ == "__main__":
    main()
