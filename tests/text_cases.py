#!/usr/bin/env python3
"""Writes the cases of crates/text_cases (its stdin) and what must come out (its stdout), from tests/rules.py. Run it from the
repository's root after a change to the cases; `git diff` then shows what moved."""
import random

import rules

SETTLED = [("C", b"XY"), ("ADMD", b"P"), ("PRMD", b"TOW"), ("O", b"brack")]
UNITS = [b"u1", b"u2", b"u3", b"u4"]
LONGEST_TEXT = 1867

# The worked examples of documents 000 (RFC 1327), 001 (RFC 987) and 002 (RFC 2156), with their sections.
NAMES = [
    b"Marshall.Rose", b"M.T.Rose", b"Marshall.M.T.Rose",  # 000 4.2.1, 001 4.1.2, 002 4.1.2
    b"J.Linnimouth",  # 000 4.3.1, 001 4.2.1, 002 4.3.1
    b"Duval", b"John.Smith",  # 000 and 002 4.4.2, 001 appendix E
    b"Marshall.",  # document 01
]
TEXTS = [
    b"/I=J/S=Linnimouth/GQ=5/",  # 000 and 002 4.3.1
    b"/PN=J.Linnimouth/GQ=5/",  # 001 4.2.1: document 01 refuses PN beside GQ
    b"/S=XX/O=YY/ADMD=A/C=NN/", b"/S=XX/O=YY/",  # 000 and 002 4.3.5
    b"/PN=Duval/DD.Title=Manager/",  # 000 and 002 4.4.2
    b"/C=UK/ADMD=BT/PRMD=AC/RFC-822=jj(a)seismo.css.gov/",  # 000 4.4.2, 001 4.3
    b"/RFC-822=jj(a)seismo.css.gov/PRMD=AC/ADMD=BT/C=GB/",  # 002 4.4.2
    b"/S=Support/o=sales/", b"/S=renseignements/o=Region Parisienne/",  # 002 4.3.5
    b"/DD.cap=20100/DD.ph1=Via Larga 11/DD.city=Milano/S=Rossi/",  # 002 4.3.5
    b"/G=Andy/S=Wharol/O=MMNY",  # 002 4.3.5: no last slash, so no record text here
    b"/S=Dietrich/O=Siemens/ADMD=DBP/C=DE/",  # 000 and 002 4.7.3.2
    b"/C=US/O=Xerox/PN=John.Smith/",  # 001 appendix E
    b"/S=Eppenberger/OU=verw/O=switch/PRMD=SWITCH/ADMD=ARCOM/C=CH/",  # 002 5.3.4.2
    b"/RFC-822=H.Hildegard(a)bbn.com/OU=cs/O=ucl/PRMD=uk.ac/ADMD=gold 400/C=gb/",  # 002 5.3.8.4
    b"/I=j/S=nosuchuser/OU=dle/O=cambridge/PRMD=DGC/ADMD=GOLD 400/C=GB/",  # 002 5.3.8.4
    b"/CN=yen*{165}/",  # 002 4.1.1: Teletex is not in scope
    b"/O=/",  # 002 appendix B: an empty value
]
# Open points, each side.
POINTS = [
    b"/S=Lee", b"/S=Lee//", b"/=x/", b"/S=a=b/", b"/FOO.x=1/", b"/DD=x/", b"/A=x/", b"/P=x/", b"/OU1=x/", b"/X121=1/",
    b"/S=a$/b/", b"/S=a$=b/", b"/S=a$$b/", b"/S=a$/", b"/S=a$", b"/S=$a$b/", b"/$S=a/", b"/DD$.t=v/", b"/DD.t.u=v/", b"/DD.=v/",
    b"/DD.t=/", b"/DD.$/t$=u=v/", b"/PRMD=/C=XY/ADMD=P/S=Lee/", b"/S=/C=XY/ADMD=P/", b"/ADMD=/C=XY/S=Lee/", b"/OU=/S=Lee/C=XY/",
    b"/S=Lee/S=Lee/", b"/C=XY/C=XY/S=Lee/", b"/O=a/O=b/S=Lee/C=XY/", b"/PN=a/PN=b/", b"/PN=Lee/S=Lee/", b"/PN=Lee/G=Ann/",
    b"/PN=Lee/I=A/", b"/PN=/C=XY/", b"/PN=Marshall./C=XY/", b"/PN=a$.b/C=XY/", b"/OU=a/OU=b/OU=c/OU=d/S=Lee/C=XY/",
    b"/OU=a/OU=b/OU=c/OU=d/OU=e/S=Lee/C=XY/", b"/DD.a=1/DD.b=2/DD.c=3/DD.d=4/C=XY/", b"/DD.a=1/DD.b=2/DD.c=3/DD.d=4/DD.e=5/C=XY/",
    b"/S=Lee/C=XY/", b"/s=Lee/c=XY/admd=P/", b"/rfc-822=x/C=XY/", b"/dd.rfc-822=x/C=XY/", b"/DD.RFC-822=x/RFC-822=y/C=XY/",
    b"/G=$/S$=a/S=b$//C=XY/", b"/", b"//", b"", b"a", b"S=Lee/", b" /S=Lee/", b"/S=Lee/ ", b"/S=Lee/\xe9/", b"/S=L\xe9e/C=XY/",
    b"/GQ=3/S=Lee/C=XY/", b"/G=A/S=Lee/C=XY/", b"/G=A.b/S=Lee/C=XY/", b"/I=4/S=Lee/C=XY/", b"/G=Ann/S=a.b/C=XY/", b"/G=Ann/S=ab.c/C=XY/",
    b"/S=ab.c/C=XY/", b"/I=M/S=ab.c/C=XY/", b"/G=Ann/S=$/b/C=XY/", b"/S=$/b/C=XY/", b"/G=Ann/C=XY/", b"/C=XY/",
    b"/DD.FENDER-1=x/C=XY/", b"/DD.FENDER-10=x/C=XY/", b"/S=" + b"x" * 40 + b"/C=XY/", b"/S=" + b"x" * 41 + b"/C=XY/",
    b"/S=" + b"$x" * 200 + b"/C=XY/", b"/O=" + b"$/" * 64 + b"/S=Lee/C=XY/", b"/O=" + b"$/" * 65 + b"/S=Lee/C=XY/",
    b"/PN=" + b"x" * 300 + b"/C=XY/", b"/PN=" + b"A." * 6 + b"Lee/C=XY/", b"/PN=" + b"A." * 5 + b"Lee/C=XY/",
    b"/PN=" + b"g" * 16 + b".A.B.C.D.E." + b"s" * 40 + b"/C=XY/", b"/PN=" + b"g" * 17 + b".Lee/C=XY/",
    b"/RFC-822=" + b"v" * 128 + b"/C=XY/", b"/RFC-822=" + b"v" * 129 + b"/C=XY/",
    b"/DD.12345678=" + b"$=" * 128 + b"/DD.$/$/$/$/$/$/$/$/=x/C=XY/",
]
# Common names: alone, beside each other key, twice, empty, against their rule, and as long as they may be.
COMMON = [
    b"/CN=x/", b"/cn=Night Desk/", b"/S=Lee/CN=Desk/", b"/CN=Desk/G=Ann/S=Lee/", b"/Cn=Night Desk/C=XY/",
    b"/CN=Night Desk/S=Lee/C=XY/", b"/S=Lee/G=Ann/I=M/GQ=II/CN=Desk/C=XY/", b"/CN=a/G=Ann/C=XY/",
    b"/CN=a/I=M/C=XY/", b"/CN=a/GQ=II/C=XY/", b"/CN=a/DD.t=v/RFC-822=x/C=XY/", b"/RFC-822=x/CN=a/C=XY/", b"/CN=a/OU=u/OU=v/O=o/PRMD=p/ADMD=q/C=XY/",
    b"/CN=a/CN=a/C=XY/", b"/CN=a/cn=b/S=Lee/C=XY/", b"/CN=/CN=/C=XY/", b"/CN=/C=XY/", b"/CN=/S=Lee/C=XY/", b"/CN=/", b"/CN=a/PN=Lee/C=XY/",
    b"/PN=Ann.M.Lee/CN=a/C=XY/", b"/PN=Ann./CN=a/C=XY/", b"/PN=Lee/CN=a/S=Lee/C=XY/", b"/CN=a/PN=Lee/PN=Lee/C=XY/", b"/CN=$/S$=a$//C=XY/",
    b"/CN=$N$i$g$h$t/C=XY/", b"/CN=a$$/C=XY/", b"/CN=a$/", b"/CN=a=b/C=XY/", b"/CN=a", b"/CN.x=a/C=XY/", b"/CN=Ann.Lee/C=XY/", b"/CN= /C=XY/",
    b"/CN= a/C=XY/", b"/CN=a /C=XY/", b"/CN=a  b/C=XY/", b"/CN=a b c/C=XY/", b"/CN=a_b/C=XY/", b"/CN=d\xe9sk/C=XY/", b"/CN=a@b/C=XY/",
    b"/CN=" + b"x" * 63 + b"/C=XY/", b"/CN=" + b"x" * 64 + b"/C=XY/", b"/CN=" + b"x" * 65 + b"/C=XY/", b"/CN=" + b"$/" * 64 + b"/C=XY/",
    b"/CN=" + b"$/" * 65 + b"/C=XY/", b"/C=XY/CN=a/DD.t=v/S=Lee/", b"/CN=a/X=b/C=XY/", b"/COMMON=a/C=XY/",
]
LOCALS = [
    b"a.b", b"ab.c", b".a", b"a..b", b"12.3.", b"1.b", b"A.B.", b"ab.", b"Ann.Lee", b"Ann./b", b"Lee", b"", b".", b"..", b"a.", b"ab",
    b"x" * 41, b"g" * 17 + b".Lee", b"A.B.C.D.E.F.Lee", b"/a", b"Ann.M.T.Lee", b"/S=a=b/", b"/FOO.x=1/", b"/S=Lee", b"Ann.a.b",
]


def read(command, digit, text):
    """What the program prints for a case."""
    if command == "N":
        name = rules.read_name(text)
        return b"no name" if name is None else b"\t".join(name)
    n = 3 if digit == 9 else digit
    record = rules.empty()
    for key, value in SETTLED[: 2 if digit == 9 else n]:
        rules.put(record, key, value)
    for unit in UNITS[: max(n - 4, 0)]:
        rules.put_unit(record, unit)
    segments = rules.read_segments(text)
    try:
        if segments is not None:
            rules.apply_segments(record, n, segments)
        elif command == "T" or rules.read_name(text) is None:
            return b"unread"
        else:
            rules.put_name(record, rules.read_name(text))
            rules.complete(record)
    except rules.Refused:
        return b"refused"
    except rules.Again:
        return b"again"
    if not rules.canonical(record):
        return b"0"
    texts = [rules.record_text(record)] + [rules.local_text(rules.left(record, n)) for n in range(9)]
    return b"1\t" + b"\t".join(texts)


def random_text(rng):
    """Segments from small sets, now and then damaged."""
    keys = ["C", "ADMD", "PRMD", "O", "OU", "OU", "S", "G", "I", "GQ", "CN", "PN", "DD.t", "dd.RFC-822", "RFC-822", "s", "ou", "cn", "X"]
    values = ["XY", "P", "a", "ab", "A.b", "b.c", "M", "MT", "ab.c", "$/", "a$=b", "x y", "", "12", "Lee", "Ann.Lee", "a  b", "/b"]
    text = "".join("/%s=%s" % (rng.choice(keys), rng.choice(values)) for _ in range(rng.randrange(1, 7))) + "/"
    if "/C=" not in text and rng.random() < 0.7:
        text = "/C=XY" + text
    if rng.random() < 0.15:
        i = rng.randrange(len(text))
        text = text[:i] + rng.choice("/=$.x ") + text[i + rng.randrange(2) :]
    return text.encode()


def main():
    cases = [("N", 0, t) for t in NAMES + LOCALS]
    longest = rules.record_text(rules.longest_record())
    assert len(longest) == LONGEST_TEXT
    for t in TEXTS + POINTS + COMMON + [longest] + LOCALS + NAMES:
        if b"\n" not in t:
            cases += [(c, d, t) for c in "TL" for d in (0, 2, 3, 4, 6, 8, 9)]
    rng = random.Random(2)
    for _ in range(900):
        cases.append((rng.choice("TL"), rng.choice([0, 0, 0, 2, 3, 4, 5, 6, 7, 8, 9]), random_text(rng)))
    for _ in range(200):
        cases.append((rng.choice("NL"), rng.choice([0, 3]), bytes(rng.choice(b"aB1. /") for _ in range(rng.randrange(8)))))
    with open("crates/text_cases/stdin", "wb") as f:
        f.write(b"".join(c.encode() + b"%d" % d + t + b"\n" for c, d, t in cases))
    with open("crates/text_cases/stdout", "wb") as f:
        f.write(b"".join(read(c, d, t) + b"\n" for c, d, t in cases))


main()
