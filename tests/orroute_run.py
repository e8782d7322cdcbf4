#!/usr/bin/env python3
"""Writes the run of crates/orroute: its stdin, and what must come out (its stdout). The run begins with the sample of document 01 (the
crate's data/sample.txt) and goes on with lines of every kind and length, more than the program's buffers hold. The answers are of
tests/mapping.py and tests/rules.py, plain Python that follows document 01 and request 12 by itself, and that must give the answers of the
stored runs (tests/stored.py) too. Nothing of the library is run. Run it from the repository's root."""
import itertools

import mapping
import rules
import stored
from rules import LONGEST_ADDRESS
from table_cases import load

CRATE = "crates/orroute/"
LONGEST_LINE = 4096
# The rooms of the program's input and output. A read of a file ends where the input's does.
ROOM = 65536
OUTPUT_ROOM = 262144
# What document 01 prints for its four lines.
SAMPLE = rb"""0	/G=Ann/S=Lee/O=brack/PRMD=TOW/ADMD=PORTNET/C=XY/
0	/RFC-822=a(u)b(a)else.test/PRMD=SURVEY/ADMD= /C=XY/
1
0	"/S=Lee/OU=Fender Two/"@brack.tow.test
"""
TOW = b"/PRMD=TOW/ADMD=PORTNET/C=XY/"
GATEWAY = b"/PRMD=SURVEY/ADMD= /C=XY/"
GIVEN = [b"Ann", b"Ruth", b"J", b"Marshall.M", b"Per-Olof", b"Xi", b"O'Neil"]
SURNAMES = [b"Lee", b"Rose", b"Fox-Lane", b"Okonkwo", b"Ng"]
HOUSES = [b"brack", b"fender", b"pilots", b"b.pilots", b"dock-4.crane.hull", b"BRACK"]

# Lines that are refused, by number: no line of the program's, or no address; too long; too long to carry; not canonical; no address carried.
REFUSED = {
    1: [b"", b"A", b"A\t", b"\t", b"a\tAnn.Lee@tow.test", b"A Ann.Lee@tow.test", b"AO\tAnn.Lee@tow.test", b"R\ttow.test", b"o\t/S=Lee/C=XY/",
        b"\0", b"\r", b"\xff\xfe", b"A\tAnn Lee@tow.test", b"A\tAnn <Lee@tow.test>", b"A\t@tow.test", b"A\tLee@", b"A\tLee@tow.test\r",
        b"A\t\"Lee@tow.test", b"A\tLee@[10.0.0.1]", b"A\t" + b"@" * 2049, b"A\t" + b"@" * LONGEST_ADDRESS],
    2: [b"A\t" + b"x" * (LONGEST_ADDRESS + 1), b"A\t" + b"x" * (LONGEST_ADDRESS - 8) + b"@tow.test", b"A\t" + b"@" * 3000],
    3: [b"A\t" + b"x" * 117 + b"@else.test", b"A\t" + b"~" * 24 + b"@else.test", b"A\t" + b"x" * 2039 + b"@else.test",
        b"A\t" + b"x" * (LONGEST_ADDRESS - 10) + b"@else.test"],
    4: [b"O\t", b"O\tLee", b"O\t/S=Lee/", b"O\t/S=Lee/C=XY", b"O\t/G=Ann/C=XY/", b"O\t/C=XY/", b"O\t/S=Lee/S=Lee/C=XY/", b"O\t/PN=Lee/S=Lee/C=XY/",
        b"O\t/PN=Marshall./C=XY/", b"O\t/S=Lee/CN1=x/C=XY/", b"O\t/CN=x/CN=x/C=XY/", b"O\t/CN=x/G=Ann/C=XY/", b"O\t/CN=/S=Lee/C=XY/",
        b"O\t/CN=" + b"x" * 65 + b"/C=XY/", b"O\t/S=Lee/O=/C=XY/", b"O\t/S=Lee  Ng/C=XY/", b"O\t/S=" + b"x" * 41 + b"/C=XY/",
        b"O\t/DD.FENDER-10=1/C=XY/", b"O\t/S=Lee" + b"/OU=u" * 5 + TOW, b"O\t" + b"/DD.t=v" * 5 + TOW, b"O\t/S=" + b"x" * 3000 + b"/C=XY/"],
    5: [b"O\t/RFC-822=a(128)b" + GATEWAY, b"O\t/RFC-822=a(a)(a)b" + GATEWAY, b"O\t/RFC-822=Lee" + GATEWAY, b"O\t/RFC-822=(127)(a)b" + GATEWAY],
}


def address_answer(table, s):
    number, _, record = mapping.to_record(table, s)
    return b"0\t" + rules.record_text(record) if number == 0 else b"%d" % number


def record_answer(table, s):
    segments, record = rules.read_segments(s), rules.empty()
    if segments is None:
        return b"4"
    try:
        rules.apply_segments(record, 0, segments)
    except rules.Refused:
        return b"4"
    number, _, text = mapping.to_address(table, record, LONGEST_LINE)
    return b"0\t" + text if number == 0 else b"%d" % number


def answer(table, line):
    """What must come out for a line, each without its LF."""
    if len(line) > LONGEST_LINE or line[:2] not in (b"A\t", b"O\t"):
        return b"1"
    if isinstance(load(table), int):
        return b"7"
    return address_answer(table, line[2:]) if line[:1] == b"A" else record_answer(table, line[2:])


def short_line(i):
    """A line of one of nine kinds that are answered 0."""
    given, surname, house = GIVEN[i % 7], SURNAMES[i % 5], HOUSES[i % 6]
    kinds = [
        b"A\t" + given + b"." + surname + b"@" + house + b".tow.test",
        b"A\t" + surname + b"_%d@else.test" % i,
        b"O\t/G=%s/S=%s/O=h%d" % (given[:16], surname, i) + TOW,
        b'A\t"/S=' + surname + b"/OU=Berth %d/" % i + b'"@brack.tow.test',
        b"O\t/RFC-822=" + surname + b"(u)%d(a)else.test" % i + GATEWAY,
        b"A\t" + b"~" * (i % 20) + b"%d@b" % i,
        b"O\t/DD.Title=Pilot %d/S=" % i + surname + b"/ADMD=P/C=AB/",
        b'A\t"/CN=Desk %d/"@' % i + house + b".tow.test",
        b"O\t/CN=Desk %d/S=" % i + surname + b"/O=h%d" % i + TOW,
    ]
    return kinds[i % len(kinds)]


def full_record(i, quoted):
    """The text of a record with four units, four DDs and both names, its values long, and each character of them behind a `$` or none."""
    value = lambda s: b"".join(b"$%c" % b for b in s) if quoted else s
    dds = b"".join(b"/DD.type-%d=" % k + value(b"%d of 4 in line %d, " % (k, i) + b"v" * (100 - 9 * k)) for k in range(4))
    units = b"".join(b"/OU=" + value(b"Unit %d of line %d" % (k, i) + b"." * (k + 3)) for k in range(4))
    names = b"/CN=" + value(b"Desk %d of many" % i) + b"/G=Ann/I=MT/S=" + value(b"Surname %d" % i)
    return dds + names + b"/GQ=III" + units + b"/O=" + value(b"House " + b"o" * (i % 50 + 1)) + TOW


def long_line(i):
    """A line of one of six kinds, of some hundred bytes to the limit."""
    kinds = [
        b"O\t" + full_record(i, False),
        b"O\t" + full_record(i, True),
        b'A\t"' + full_record(i, False)[: -len(TOW)] + b'/"@tow.test',
        b"A\t" + b"x" * (60 + i) + b"@else.test",
        b"A\t" + b"x" * (LONGEST_ADDRESS - 25 + i) + b"@else.test",
        b"O\t/S=" + b"x" * (4000 + i % 80) + b"/C=XY/",
    ]
    return kinds[i % len(kinds)]


def size(lines):
    return sum(len(line) + 1 for line in lines)


def lines_of_run(sample):
    """The lines, each without its LF; the last lacks one in the run as well."""
    refused = [line for lines in REFUSED.values() for line in lines]
    # short lines whose answers are long: for one read, more than the output's room
    lines = sample + refused + [b"A\t~@%c" % (97 + i % 26) for i in range(5720)] + [short_line(i) for i in range(60)]
    # a line at the limit that waits whole at the end of the first read, its LF not there yet
    lines.append(b"x" * (ROOM - LONGEST_LINE - size(lines) - 1))
    lines.append(b"O\t/S=" + b"y" * (LONGEST_LINE - 11) + b"/C=XY/")
    assert size(lines) == ROOM + 1
    lines += [short_line(i) for i in range(60, 260)]
    # lines over the limit, the last of them longer than the buffer
    lines += [long_line(i) for i in range(18)] + [b"A\t" + b"x" * (LONGEST_LINE - 1), short_line(0)]
    lines += [b"A\tLee@tow.test" * 5000, b"", short_line(0)] + refused
    # the longest text of a record, and its address
    longest = rules.record_text(rules.longest_record())
    lines += [b"O\t" + longest, b"A\t" + longest + b"@gw.survey.test"]
    return lines + [line for i in range(18, 30) for line in (short_line(i), long_line(i))] + [b"A\tAnn.Lee@brack.tow.test"]


def judge_stored_runs():
    for folder in stored.runs():
        table, given, expected = (open(folder + name, "rb").read() for name in ("table.tsv", "stdin", "expected"))
        lines = given[:-1].split(b"\n") if given[-1:] == b"\n" else given.split(b"\n")
        assert b"".join(answer(table, line) + b"\n" for line in lines) == expected, folder


def main():
    judge_stored_runs()
    with open(CRATE + "data/table.tsv", "rb") as f:
        table = f.read()
    with open(CRATE + "data/sample.txt", "rb") as f:
        sample = f.read().split(b"\n")[:-1]
    lines = lines_of_run(sample)
    answers = [answer(table, line) + b"\n" for line in lines]
    assert b"".join(answers[: len(sample)]) == SAMPLE
    ends = itertools.accumulate(len(line) + 1 for line in lines)
    assert sum(len(found) for found, end in zip(answers, ends) if end <= ROOM) > OUTPUT_ROOM
    for number, refused in REFUSED.items():
        assert all(answer(table, line) == b"%d" % number for line in refused), number
    with open(CRATE + "stdin", "wb") as f:
        f.write(b"\n".join(lines))
    with open(CRATE + "stdout", "wb") as f:
        f.write(b"".join(answers))


if __name__ == "__main__":
    main()
