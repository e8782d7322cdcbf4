#!/usr/bin/env python3
"""Writes the cases of crates/mapping_cases: the tables in its data/, its stdin, and what must come out (its stdout).

The cases are of two kinds. Those of tests/vectors/ have their answers stored (tests/stored.py). The others stand in this file, and are
answered by tests/mapping.py, plain Python that follows document 01 and request 12 by itself, and that must give the stored answers too.
Nothing of the library is run. Run it from the repository's root."""
import base64
import glob
import json
import os

import mapping
import rules
import stored
from rules import LONGEST_ADDRESS
from table_cases import load

CRATE = "crates/mapping_cases/"
# The room of the program for its input; and what a program may write, at most, when it is run.
ROOM = 2097152
MOST_WRITTEN = 1048576
# The longest address of a canonical record.
LONGEST_OF_RECORD = 2122

# The table of document 01's `orroute`, a row that settles all levels but OU4, and one that settles PRMD as omitted.
GATEWAY = b"G\tgw.survey.test\tXY\t \tSURVEY\n"
PORTS = GATEWAY + b"D\ttow.test\tXY\tPORTNET\tTOW\nR\ttow.test\tXY\tPORTNET\tTOW\n"
TABLE = PORTS + b"D\tdeep.test\tXY\tPORTNET\tTOW\tbrack\tu1\tu2\tu3\nD\tgap.test\tXY\tPORTNET\t\nR\tgap.test\tXY\tPORTNET\t\n"

# Each clause of "carried whole": an address for which it alone holds, and a neighbour for which none does.
CLAUSES = [
    ("no row", b"Ann.Lee@else.test", b"Ann.Lee@brack.tow.test"),
    ("no row", b"Ann.Lee@undertow.test", b"Ann.Lee@tow.test"),
    ("no domain part", b"Ann.Lee@a+b.tow.test", b"Ann.Lee@ab.tow.test"),
    ("past a bound", b"Ann.Lee@" + b"u" * 33 + b".brack.tow.test", b"Ann.Lee@" + b"u" * 32 + b".brack.tow.test"),
    ("past OU4", b"Ann.Lee@a.b.deep.test", b"Ann.Lee@a.deep.test"),
    ("empty", b'""@brack.tow.test', b'"L"@brack.tow.test'),
    ("spaces", b'"Ann  Lee"@brack.tow.test', b'"Ann Lee"@brack.tow.test'),
    ("spaces", b'" Lee"@brack.tow.test', b'"Lee"@brack.tow.test'),
    ("spaces", b'"Lee "@brack.tow.test', b'"Leex"@brack.tow.test'),
    ("other character", b"Ann_Lee@brack.tow.test", b"Ann-Lee@brack.tow.test"),
    ("no reading", b'"Ann."@brack.tow.test', b'"Ann.L"@brack.tow.test'),
    ("unknown key", b"/S=Lee/OU1=x/@brack.tow.test", b"/S=Lee/CN=x/@brack.tow.test"),
    ("unknown key", b"/S=Lee/DD=x/@brack.tow.test", b"/S=Lee/DD.t=x/@brack.tow.test"),
    ("repeated key", b"/S=Lee/S=Lee/@brack.tow.test", b"/S=Lee/OU=Lee/OU=Lee/@brack.tow.test"),
    ("repeated key", b"/CN=x/cn=x/@brack.tow.test", b"/CN=x/S=x/@brack.tow.test"),
    ("PN beside a name", b"/PN=Lee/GQ=x/@brack.tow.test", b"/PN=Lee/OU=x/@brack.tow.test"),
    ("PN beside a name", b"/PN=Lee/CN=x/S=x/@brack.tow.test", b"/PN=Lee/CN=x/@brack.tow.test"),
    ("PN is no name", b'"/PN=Ann./"@brack.tow.test', b'"/PN=Ann.L/"@brack.tow.test'),
    ("named again", b"/S=Lee/O=brack/@brack.tow.test", b"/S=Lee/OU=brack/@brack.tow.test"),
    ("named again", b"/S=Lee/PRMD=x/@gap.test", b"/S=Lee/O=x/@gap.test"),
    ("not canonical", b"/G=Ann/@brack.tow.test", b"/G=Ann/S=Lee/@brack.tow.test"),
    ("not canonical", b"/CN=x/G=Ann/@brack.tow.test", b"/CN=x/@brack.tow.test"),
    ("not canonical", b"/S=Lee/CN=/@brack.tow.test", b"/S=Lee/CN=L/@brack.tow.test"),
    ("not canonical", b"/CN=" + b"x" * 65 + b"/@brack.tow.test", b"/CN=" + b"x" * 64 + b"/@brack.tow.test"),
    ("not canonical", b"/S=Lee/OU=a/OU=b/OU=c/OU=d/OU=e/@tow.test", b"/S=Lee/OU=a/OU=b/OU=c/OU=d/@tow.test"),
    ("not canonical", b"/DD.a=1/DD.b=2/DD.c=3/DD.d=4/DD.e=5/@tow.test", b"/DD.a=1/DD.b=2/DD.c=3/DD.d=4/@tow.test"),
    ("not canonical", b"/S=Lee/PRMD=/ADMD=P/C=XY/@gw.survey.test", b"/S=Lee/PRMD=Q/ADMD=P/C=XY/@gw.survey.test"),
]


class Cases:
    """Lines of stdin and of stdout, table by table."""

    def __init__(self):
        self.tables, self.lines, self.out = {}, {}, {}

    def under(self, table):
        if table not in self.tables:
            self.tables[table] = f"{len(self.tables):03}.tsv"
            self.lines[table], self.out[table] = [], []
        return self.lines[table], self.out[table]

    def write(self):
        for old in glob.glob(CRATE + "data/*.tsv"):
            os.remove(old)
        with open(CRATE + "stdin", "wb") as f, open(CRATE + "stdout", "wb") as g:
            for table, name in self.tables.items():
                with open(CRATE + "data/" + name, "wb") as t:
                    t.write(table)
                f.write(b"T\t" + name.encode() + b"\n" + b"".join(self.lines[table]))
                g.write(b"".join(self.out[table]))
            assert f.tell() <= ROOM and g.tell() <= MOST_WRITTEN


def digits(n):
    """A number in four digits, 9999 for the largest length or count there is."""
    return b"%04d" % n


def line(tag, *fields):
    return tag + b"\t" + b"".join(fields).hex().encode() + b"\n"


def part(place, count, *texts):
    """A part of a record, its length in front."""
    s = digits(place) + digits(count) + b"".join(texts)
    return digits(len(s)) + s


def value(k, s, size=None):
    return part(k, 0, digits(len(s) if size is None else size), s[:64])


def unit(i, s, count, size=None):
    return part(len(rules.SINGLES) + i, count, digits(len(s) if size is None else size), s[:32])


def dd(i, t, v, count, sizes=None):
    t_size, v_size = sizes or (len(t), len(v))
    return part(len(rules.SINGLES) + 4 + i, count, digits(t_size), t[:8].ljust(8, b"\0"), digits(v_size), v[:128])


def record_parts(one, units, dds):
    """A record as it is filled, what does not fit its room cut off, its length as it is."""
    found = [value(k, one[name]) for k, name in enumerate(rules.SINGLES) if one.get(name)]
    found += [unit(i, u, len(units)) for i, u in enumerate(units[:4])]
    return found + [dd(i, t, v, len(dds)) for i, (t, v) in enumerate(dds[:4])]


def record_line(room, parts):
    return line(b"R", digits(room), *parts)


def record_answer(number, at_line, text):
    """What is printed of an address to a record: the number, the line, and with 0 the text."""
    return b"%d\t%d\t%s\n" % (number, at_line if number == 7 else 0, text if number == 0 else b"")


def address_answer(number, at_line, text, room):
    """What is printed of a record to an address: all that the text does not take of the buffer is as before."""
    shown = text if number == 0 else b""
    assert len(shown) <= room
    return b"%d\t%d %d %s =\n" % (at_line if number == 7 else 0, number, len(shown), shown.hex().encode())


def add_address(cases, table, s):
    lines, out = cases.under(table)
    lines.append(line(b"A", s))
    number, at_line, found = mapping.to_record(table, s)
    out.append(record_answer(number, at_line, rules.record_text(found) if number == 0 else b""))
    return out[-1]


def add_record(cases, table, record, room):
    lines, out = cases.under(table)
    lines.append(record_line(room, record_parts(record["one"], record["OU"], record["DD"])))
    out.append(address_answer(*mapping.to_address(table, record, room), room))
    return out[-1]


def add_text(cases, table, record, room):
    """The same by the record's text, for what is present and empty there: a record of the library has no such value."""
    lines, out = cases.under(table)
    lines.append(line(b"O", digits(room), rules.record_text(record)))
    out.append(address_answer(*mapping.to_address(table, record, room), room))
    return out[-1]


def raw(s):
    return base64.b64decode(s) if s else b""


def stored_record(given):
    one = {k: raw(given[k]) for k in rules.SINGLES if given.get(k) is not None}
    return {"one": one, "OU": [raw(u) for u in given["OU"]], "DD": [(raw(t), raw(v)) for t, v in given["DD"]]}


def from_maps(cases):
    for text in stored.lines("maps.jsonl"):
        case = json.loads(text)
        if case["fn"] == "a2r":
            found = add_address(cases, raw(case["table"]), raw(case["addr"]))
            done = rules.record_text(stored_record(case["record"])) if case["number"] == 0 else b""
            assert found == record_answer(case["number"], case["line"], done), text
        elif case["fn"] == "r2a":
            given = stored_record(case["record"])
            add = add_text if b"" in given["one"].values() else add_record
            found = add(cases, raw(case["table"]), given, case["room"])
            assert found == address_answer(case["number"], case["line"], raw(case["text"]), case["room"]), text


def from_runs(cases):
    """The runs of `orroute` in the first set: its A and O lines. (Lines of another form are the router's; all runs are in route_cases.)"""
    for folder in stored.runs(stored.SETS[:1]):
        table, given, expected = (open(folder + name, "rb").read() for name in ("table.tsv", "stdin", "expected"))
        lines, out = cases.under(table)
        for text, answer in zip(given.split(b"\n"), expected.split(b"\n")):
            number, _, shown = answer.partition(b"\t")
            if text[:2] not in (b"A\t", b"O\t") or len(text) > 4096 or number == b"7":
                continue
            if text[:1] == b"A":
                lines.append(line(b"A", text[2:]))
                out.append(record_answer(int(number), 0, shown))
            else:
                lines.append(line(b"O", digits(LONGEST_ADDRESS), text[2:]))
                out.append(address_answer(int(number), 0, shown, LONGEST_ADDRESS))


def from_clauses(cases):
    for name, alone, none in CLAUSES:
        assert mapping.clauses(load(TABLE), alone) == [name], alone
        assert mapping.clauses(load(TABLE), none) == [], none
        add_address(cases, TABLE, alone)
        add_address(cases, TABLE, none)


def record(one, units=(), dds=()):
    return {"one": {k: v for k, v in one.items() if v}, "OU": list(units), "DD": list(dds)}


LEE = {"C": b"XY", "ADMD": b"PORTNET", "PRMD": b"TOW", "S": b"Lee"}


def readable_address(n):
    """An address of n bytes that is read: each character of its values stands behind a `$`, and as many as are needed behind a backslash."""
    text, end = (b"/DD.t=" + b"$v" * 128) * 4 + b"/CN=" + b"$x" * 64 + b"/", b'"@tow.test'
    escaped = n - len(text) - len(end) - 1
    return b'"' + b"".join(b"\\%c" % b for b in text[:escaped]) + text[escaped:] + end


def from_edges(cases):
    """Both sides of document 01's edges, the order of the refusals, and buffers that are too short, just long enough and longer."""
    for n in (63, 64):
        add_record(cases, PORTS, record({**LEE, "O": b"o" * n}), LONGEST_ADDRESS)
    for n in (116, 117):
        add_address(cases, PORTS, b"x" * n + b"@else.test")
    # 2 before 1, 1 before 3; what was too long before common names is so no more
    for n in (2048, 2049, LONGEST_ADDRESS - 1, LONGEST_ADDRESS, LONGEST_ADDRESS + 1):
        for s in (b"x" * n, b"x" * (n - 10) + b"@else.test", b'"' + b"x" * (n - 11) + b'"@tow.test', readable_address(n)):
            add_address(cases, PORTS, s)
    for s in (b"a@@b", b""):
        add_address(cases, PORTS, s)
    for table in (b"", PORTS[:-1], PORTS + b"\n"):
        add_address(cases, table, b"a@@b")
        add_record(cases, table, record({}), 0)
    samples = [
        record({**LEE, "O": b"brack"}, [b"Fender Two"]),
        record({"C": b"XY", "ADMD": b" ", "PRMD": b"SURVEY"}, dds=[(b"rfc-822", b"a(u)b(a)else.test")]),
        record({"C": b"AB", "ADMD": b"P", "G": b"/S=a", "S": b"b/"}, dds=[(b"t", b"v/=")]),
    ]
    for r in samples:
        n = len(mapping.to_address(PORTS, r, 4096)[2])
        for room in (0, 1, n - 1, n, n + 1, LONGEST_ADDRESS, 4096):
            add_record(cases, PORTS, r, room)
    bad = record({"C": b"XY", "ADMD": b" ", "PRMD": b"SURVEY"}, dds=[(b"RFC-822", b"a(128)")])
    shapeless = record({"C": b"XY", "ADMD": b" ", "PRMD": b"SURVEY"}, dds=[(b"RFC-822", b"a(a)(a)b")])
    none = record({"C": b"XY", "ADMD": b" ", "PRMD": b"SURVEY", "G": b"Ann"}, dds=[(b"RFC-822", b"a(128)")])
    # 5 before 6, 4 before 5, 7 before 4
    for r in (bad, shapeless, none):
        for room in (0, LONGEST_ADDRESS):
            add_record(cases, PORTS, r, room)


def add_both(cases, table, r):
    """A record that is no carrier, and its address back, which is the same record; returns the address."""
    number, _, s = mapping.to_address(table, r, LONGEST_ADDRESS)
    assert number == 0 and mapping.to_record(table, s) == (0, 0, r), r
    for room in (len(s) - 1, len(s), LONGEST_ADDRESS):
        add_record(cases, table, r, room)
    add_address(cases, table, s)
    return s


DESK = {"C": b"XY", "ADMD": b"PORTNET", "PRMD": b"TOW", "CN": b"Night Desk"}


def from_common(cases):
    """Common names, under rows and at the gateway, and carriers but for one."""
    for common in (b"Desk", b"Night Desk", b"Ann.Lee", b"Lee", b"/S=a", b"x" * 63, b"x" * 64, b"=" * 64, b"'+,-./:=?()"):
        for name in ({}, {"S": b"Lee"}, {"S": b"Lee", "G": b"Ann", "I": b"M", "GQ": b"II"}):
            for levels in ({}, {"O": b"brack"}, {"O": b"Fender Two"}, {"PRMD": b"", "O": b"q"}, {"ADMD": b"P"}):
                add_both(cases, TABLE, record({**DESK, "CN": common, **name, **levels}))
    dds = [(b"RFC-822", b"a(u)b(a)else.test"), (b"t", b"v/=")]
    gateway = {"C": b"xy", "ADMD": b" ", "PRMD": b"Survey"}
    for found in (dds, dds[:1], dds[1:]):
        add_both(cases, TABLE, record(DESK, [b"Fender Two", b"u"], found))
        add_both(cases, TABLE, record({**gateway, "CN": b"Desk"}, dds=found))
    for r in (record(gateway, dds=dds[:1]), record({**gateway, "CN": b"Desk"}, dds=[(b"RFC-822", b"a(128)")])):
        add_record(cases, TABLE, r, LONGEST_ADDRESS)
    for common in (b"x" * 65, b" Desk", b"Desk ", b"Night  Desk", b"Night_Desk", b"d\xe9sk"):
        add_record(cases, TABLE, record({**DESK, "CN": common}), LONGEST_ADDRESS)
    for name in ("G", "I", "GQ"):
        add_record(cases, TABLE, record({**DESK, name: b"A"}), LONGEST_ADDRESS)
    for text in (b"/CN=a/CN=a", b"/CN=", b"/PN=Ann.Lee/CN=a", b"/CN=a/OU=u", b"/CN=$/$=", b"/CN=a/PRMD=x", b"/CN=a/DD.t=v"):
        add_address(cases, TABLE, text + b"/@brack.tow.test")
        add_address(cases, TABLE, b'"' + text + b'/ADMD=P/C=XY/"@gw.survey.test')


def from_longest(cases):
    """The longest text of a record and the longest address of one: for that a character is not quoted in the text, and the text is."""
    domain = b".".join([b"g" * 63] * 3 + [b"g" * 61])
    table = b"G\t" + domain + b"\tXY\t \tSURVEY\n"
    longest = rules.longest_record()
    assert len(add_both(cases, table, longest)) == len(rules.record_text(longest)) + 1 + len(domain)
    longest["one"]["CN"] = b"," + longest["one"]["CN"][1:]
    assert len(add_both(cases, table, longest)) == LONGEST_OF_RECORD
    add_both(cases, PORTS, longest)
    add_both(cases, PORTS, {**longest, "one": {**longest["one"], "C": b"XY", "ADMD": b"PORTNET", "PRMD": b"TOW"}})


def from_disturbed(cases):
    """Records whose lengths and counts are out of range: 4, and the buffer as before."""
    lines, out = cases.under(PORTS)
    good = record_parts({**LEE, "O": b"brack"}, [b"u"], [(b"t", b"v")])
    parts = [value(k, b"XY", size) for k in range(len(rules.SINGLES)) for size in (65, 9999)]
    parts += [unit(1, b"u", 2, size) for size in (33, 9999)]
    parts += [dd(1, b"t", b"v", 2, sizes) for sizes in ((9, 1), (9999, 1), (1, 129), (1, 9999))]
    parts += [unit(0, b"u", count) for count in (5, 9999)] + [dd(0, b"t", b"v", count) for count in (5, 9999)]
    for bad in parts:
        lines.append(record_line(64, good + [bad]))
        out.append(address_answer(4, 0, b"", 64))


# The worked mapping examples of documents 000, 001 and 002 that document 01's rules cover: section, table rows, address, record text, and
# which way. The answers are the documents', in document 01's form: keys in capitals, its order of keys.
BOTH, IN, OUT = "AO", "A", "O"
WORKED = [
    ("000 4.3.1", b"widget.com\tTC\tBTT\t\tWidget", b"/I=J/S=Linnimouth/GQ=5/@Marketing.widget.com",
     b"/I=J/S=Linnimouth/GQ=5/OU=Marketing/O=Widget/ADMD=BTT/C=TC/", BOTH),
    ("000 4.3.1", b"widget.com\tTC\tBTT\t\tWidget", b"J.Linnimouth@Marketing.widget.com", b"/I=J/S=Linnimouth/OU=Marketing/O=Widget/ADMD=BTT/C=TC/", BOTH),
    ("000 4.3.1", b"AC.UK\tGB\tGOLD 400\tUK.AC", b"Lee@R-D.Salford.AC.UK", b"/S=Lee/OU=R-D/O=Salford/PRMD=UK.AC/ADMD=GOLD 400/C=GB/", BOTH),
    ("001 4.2.1", b"AC.UK\t234\tBT\tDES", b"Lee@R-D.Salford.AC.UK", b"/S=Lee/OU=R-D/O=Salford/PRMD=DES/ADMD=BT/C=234/", BOTH),
    ("001 4.2.1", b"Xerox.COM\tUS\tATT\t\tXerox", b"J.Linnimouth@Marketing.Xerox.COM", b"/I=J/S=Linnimouth/OU=Marketing/O=Xerox/ADMD=ATT/C=US/", BOTH),
    ("001 4.3", b"Inria.PTT.FR\tFR\tPTT\tInria", b"/PN=Duval/DD.Title=Manager/@Inria.PTT.FR", b"/DD.Title=Manager/S=Duval/PRMD=Inria/ADMD=PTT/C=FR/", IN),
    ("000 4.4.2", b"ATLAS.FR\tFR\tATLAS", b"/PN=Duval/DD.Title=Manager/@Inria.ATLAS.FR", b"/DD.Title=Manager/S=Duval/PRMD=Inria/ADMD=ATLAS/C=FR/", IN),
    ("000 4.4.2", b"", b'"/C=UK/ADMD=BT/PRMD=AC/RFC-822=jj(a)seismo.css.gov/"@gw.survey.test', b"/RFC-822=jj(a)seismo.css.gov/PRMD=AC/ADMD=BT/C=UK/", IN),
    ("002 4.4.2", b"", b'"/RFC-822=jj(a)seismo.css.gov/PRMD=AC/ADMD=BT/C=GB/"@gw.survey.test', b"/RFC-822=jj(a)seismo.css.gov/PRMD=AC/ADMD=BT/C=GB/", BOTH),
    ("002 4.3.5", b"Master400.it\tit\tMaster400", b"/S=Support/O=sales/@Master400.it", b"/S=Support/O=sales/ADMD=Master400/C=it/", BOTH),
    ("002 4.3.5", b"autoroutes.fr\tfr\tatlas\tautoroutes", b'"/S=renseignements/O=Region Parisienne/"@autoroutes.fr',
     b"/S=renseignements/O=Region Parisienne/PRMD=autoroutes/ADMD=atlas/C=fr/", BOTH),
    ("002 4.3.5", b"ptpostel.it\tit\tPtPostel", b'"/DD.cap=20100/DD.ph1=Via Larga 11/DD.city=Milano/S=Rossi/"@ptpostel.it',
     b"/DD.cap=20100/DD.ph1=Via Larga 11/DD.city=Milano/S=Rossi/ADMD=PtPostel/C=it/", BOTH),
    ("002 4.3.5", b"attmail.com\tus\tATT", b"/G=Andy/S=Wharol/O=MMNY/@attmail.com", b"/G=Andy/S=Wharol/O=MMNY/ADMD=ATT/C=us/", BOTH),
]
# Carriers: section, the gateway's path, address, the carrier's record text.
CARRIED = [
    ("000 4.3.2", b"GB\tGOLD 400\tUK.AC\tUCL\tCS", b"Jimmy@WIDGET-LABS.CO.UK", b"/RFC-822=Jimmy(a)WIDGET-LABS.CO.UK/OU=CS/O=UCL/PRMD=UK.AC/ADMD=GOLD 400/C=GB/"),
    ("000 4.3.2", b"TC\tWizz.mail\t42", b"postel@venera.isi.edu", b"/RFC-822=postel(a)venera.isi.edu/PRMD=42/ADMD=Wizz.mail/C=TC/"),
    ("001 4.2.2", b"US\tTelemail\tSan Fransisco\tU Cal\tBerkeley", b"postel@usc-isib.arpa",
     b"/RFC-822=postel(a)usc-isib.arpa/OU=Berkeley/O=U Cal/PRMD=San Fransisco/ADMD=Telemail/C=US/"),
    ("000 4.4.2", b"UK\tGold 400\tUK.AC", b"/PN=Duval/DD.Title=Manager/@Inria.ATLAS.FR",
     b"/RFC-822=$/PN$=Duval$/DD.Title$=Manager$/(a)Inria.ATLAS.FR/PRMD=UK.AC/ADMD=Gold 400/C=UK/"),
    ("002 4.3.4", b"us\tMCI\trelay", b"Tom_Harris@cs.widget.com", b"/RFC-822=Tom(u)Harris(a)cs.widget.com/PRMD=relay/ADMD=MCI/C=us/"),
]


def add_pair(cases, table, address, text, ways):
    lines, out = cases.under(table)
    if "A" in ways:
        lines.append(line(b"A", address))
        out.append(record_answer(0, 0, text))
    if "O" in ways:
        lines.append(line(b"O", digits(LONGEST_ADDRESS), text))
        out.append(address_answer(0, 0, address, LONGEST_ADDRESS))


def from_worked(cases):
    for _, rows, address, text, ways in WORKED:
        table = GATEWAY + (b"D\t" + rows + b"\nR\t" + rows + b"\n" if rows else b"")
        add_pair(cases, table, address, text, ways)
    for _, path, address, text in CARRIED:
        add_pair(cases, b"G\tgw.survey.test\t" + path + b"\n", address, text, BOTH)


def main():
    cases = Cases()
    from_maps(cases)
    from_runs(cases)
    from_clauses(cases)
    from_edges(cases)
    from_common(cases)
    from_longest(cases)
    from_disturbed(cases)
    from_worked(cases)
    cases.write()


main()
