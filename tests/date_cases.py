#!/usr/bin/env python3
"""Writes the cases of crates/date_cases (its stdin) and what must come out (its stdout).

It follows request 6 by itself, in plain Python with one pattern for each form, and runs nothing of the library. The cases of
tests/vectors/dates.tsv, whose answers are of an implementation that was written apart from the library, are among them, and what is worked
out here must agree with each. Run it from the repository's root after a change to the cases; `git diff` then shows what moved."""
import re

CRATE = "crates/date_cases/"
# Standard input, at most; the longest of the buffers, one byte over the longest text.
ROOM = 262144
BUFFER = 25
MONTHS = "Jan Feb Mar Apr May Jun Jul Aug Sep Oct Nov Dec".split()
DAYS = "Mon Tue Wed Thu Fri Sat Sun".split()
OFFSETS = ["%s%02d%02d" % (sign, hour, minute) for sign in "-+" for hour in range(24) for minute in range(60)]

UTC = re.compile(rb"([0-9]{2})([0-9]{2})([0-9]{2})([0-9]{2})([0-9]{2})([0-9]{2})?([Zz]|[+-][0-9]{4})")
DATE = re.compile(
    rb"(?:(?i:Mon|Tue|Wed|Thu|Fri|Sat|Sun), )?([0-9]{1,2}) ((?i:Jan|Feb|Mar|Apr|May|Jun|Jul|Aug|Sep|Oct|Nov|Dec)) ([0-9]{2})"
    rb" ([0-9]{2}):([0-9]{2})(?::([0-9]{2}))? ((?i:GMT|UT)|[+-][0-9]{4})"
)


# The rules


def days_in(year, month):
    if month == 2:
        return 29 if year % 4 == 0 else 28
    return 30 if month in (4, 6, 9, 11) else 31


def zone_of(zone):
    """A zone as it is written, or None."""
    if zone[:1] not in (b"+", b"-") or zone == b"-0000":
        return b"+0000"
    if int(zone[1:3]) > 23 or int(zone[3:5]) > 59:
        return None
    return zone


def checked(year, month, day, hour, minute, second, zone):
    """The parts of a date that may be, or None: numbers, the second None where there is none, and the zone as it is written."""
    year, month, day, hour, minute = int(year), int(month), int(day), int(hour), int(minute)
    second, zone = None if second is None else int(second), zone_of(zone)
    if not 1 <= month <= 12 or not 1 <= day <= days_in(year, month):
        return None
    if hour > 23 or minute > 59 or (second is not None and second > 59) or zone is None:
        return None
    return year, month, day, hour, minute, second, zone


def read_utc(s):
    found = UTC.fullmatch(s)
    return found and checked(*found.groups())


def read_date(s):
    found = DATE.fullmatch(s)
    if not found:
        return None
    day, month, year, hour, minute, second, zone = found.groups()
    return checked(year, 1 + MONTHS.index(month.decode().capitalize()), day, hour, minute, second, zone)


def utc_text(year, month, day, hour, minute, second, zone):
    return b"%02d%02d%02d%02d%02d%s%s" % (year, month, day, hour, minute, b"" if second is None else b"%02d" % second, zone)


def date_text(year, month, day, hour, minute, second, zone):
    seconds = b"" if second is None else b":%02d" % second
    return b"%02d %s %02d %02d:%02d%s %s" % (day, MONTHS[month - 1].encode(), year, hour, minute, seconds, zone)


def answer(tag, s):
    """The number, and the text."""
    date = read_utc(s) if tag == "U" else read_date(s)
    if date is None:
        return 10, b""
    return 0, (date_text if tag == "U" else utc_text)(*date)


# The cases


def with_swaps(s):
    """A text, and what becomes of it with one byte changed, left out or doubled; and cut at every length, from either end."""
    for i in range(len(s)):
        for b in b"0 :+\xff" + bytes([s[i] ^ 0x80, s[i] ^ 0x20]):
            yield s[:i] + bytes([b]) + s[i + 1 :]
        yield s[:i] + s[i + 1 :]
        yield s[:i] + s[i : i + 1] + s[i:]
        yield s[:i]
        yield s[i:]
    yield s


def days():
    """Every day of four years; seconds, hours and minutes follow the day."""
    n = 0
    for year in range(24, 28):
        for month in range(1, 13):
            for day in range(1, days_in(year, month) + 1):
                second = n % 60 if n % 2 else None
                date = (year, month, day, n % 24, n % 59, second, b"+0000")
                yield "U", utc_text(*date)[:-5] + b"Z"
                yield "R", date_text(*date)[:-5] + (b"GMT", b"UT")[n % 3 == 0]
                n += 1


def offsets():
    """Every offset, and those that are none."""
    for zone in OFFSETS + [s + z for s in "+-" for z in "2400 2459 2360 0060 0099 2399 9999 1960".split()]:
        yield "U", b"2611151020" + zone.encode()
        yield "R", b"15 Nov 26 10:20 " + zone.encode()


def month_ends():
    """Each month's first and last day, the days before and after, and the days that no month has."""
    for year in (0, 24, 26, 99):
        for month in range(0, 15):
            for day in (0, 1, 28, 29, 30, 31, 32, 99):
                yield "U", b"%02d%02d%02d1020Z" % (year, month, day)
                if 1 <= month <= 12:
                    yield "R", b"%02d %s %02d 10:20 UT" % (day, MONTHS[month - 1].encode(), year)
    for year in range(100):
        yield "U", b"%02d02291020Z" % year
        yield "R", b"29 Feb %02d 10:20 UT" % year


def times():
    """Hours, minutes and seconds about their bounds, one-digit ones, and signs and spaces for digits."""
    for part in b"00 01 09 10 19 20 23 24 29 30 58 59 60 61 99".split():
        for utc, date in (
            (b"261115%s20Z", b"15 Nov 26 %s:20 UT"),
            (b"26111510%sZ", b"15 Nov 26 10:%s UT"),
            (b"2611151020%sZ", b"15 Nov 26 10:20:%s UT"),
            (b"2611152359%s+0100", b"15 Nov 26 23:59:%s +0100"),
        ):
            yield "U", utc % part
            yield "R", date % part
    for part in (b"", b"1", b" 1", b"1 ", b"+1", b"-1", b"001", b"1.", b"0x", b"\xb2\xb2", b"::"):
        for date in (b"15 Nov 26 %s:20 UT", b"15 Nov 26 10:%s UT", b"15 Nov 26 10:20:%s UT", b"%s Nov 26 10:20 UT", b"15 Nov %s 10:20 UT"):
            yield "R", date % part
    for part in b"24:00 24:00:00 23:60 23:59:60 10 1020 10:20: 10:20:30:40 10:20:30.5 10.20 10:.20".split():
        yield "R", b"15 Nov 26 %s UT" % part


def day_numbers():
    """Days in one digit, in two, and 0."""
    for day in range(34):
        for form in (b"%d Dec 26 10:20 UT", b"%02d Dec 26 10:20 UT", b"Sun, %d Dec 26 10:20 UT", b"%03d Dec 26 10:20 UT"):
            yield "R", form % day


def day_names():
    """Day names in all cases, right and wrong ones: 16 November 26 is a Monday. Full names, two letters, and what is none."""
    full = "Monday Tuesday Wednesday Thursday Friday Saturday Sunday".split()
    for k, name in enumerate(DAYS):
        yield "R", b"%s, %d Nov 26 10:20 UT" % (name.encode(), 16 + k)
        for k in range(8):
            mixed = "".join(c.upper() if k >> i & 1 else c.lower() for i, c in enumerate(name))
            yield "R", b"%s, 15 Nov 26 10:20 UT" % mixed.encode()
        for form in (b"%s ", b"%s,", b"%s,  ", b"%s , ", b" %s, ", b"%s., ", b"%s; ", b"%s,\t", b"%s"):
            yield "R", form % name.encode() + b"15 Nov 26 10:20 UT"
        yield "R", name.encode() + b", "
        yield "R", b"15 Nov 26 10:20 UT, " + name.encode()
    for name in full + [name[:2] for name in DAYS] + ["Mor", "Tun", "Wen", "Thi", "Fre", "Sar", "Sut", "Nov", "", "Mo\xff", "\xcdon"]:
        yield "R", name.encode("latin-1") + b", 15 Nov 26 10:20 UT"


def months():
    """Month names in all cases, and what is none."""
    for name in MONTHS:
        for k in range(8):
            mixed = "".join(c.upper() if k >> i & 1 else c.lower() for i, c in enumerate(name))
            yield "R", b"15 %s 26 10:20 UT" % mixed.encode()
        for wrong in (name[:2], name + ".", name + "e", name[::-1], name[0] + name[2] + name[1]):
            yield "R", b"15 %s 26 10:20 UT" % wrong.encode()
    full = "January February March April June July August September October November December".split()
    for name in full + ["Maj", "Jon", "Juk", "Sept", "Okt", "Dez", "Mon", "11", "Nov\xff", "N\xefv", "", " "]:
        yield "R", b"15 " + name.encode("latin-1") + b" 26 10:20 UT"


def spaces():
    """No space, two, or a tab at each place where there is one, and one before or behind."""
    for s in (b"15 Nov 26 10:20 UT", b"Sun, 5 Nov 26 10:20:30 -0330"):
        for i, b in enumerate(s):
            if b == 0x20:
                for part in (b"", b"  ", b"\t", b"   ", b"-", b"\x00", b"\xa0", b"(a) "):
                    yield "R", s[:i] + part + s[i + 1 :]
        for other in (b" " + s, s + b" ", b"\t" + s, s + b"\t", s + b"\r", b"\r" + s, s + b"\x00", s + b" (a)", s + b"," + s):
            yield "R", other
    for s in (b"2611151020Z", b"261115102030-0330"):
        for i in range(len(s) + 1):
            yield "U", s[:i] + b" " + s[i:]


def zones():
    """Zones of either form, and what is none."""
    marks = b"Z z GMT gmt Gmt gMT UT ut Ut uT UTC EST EDT CST PST A a M N Y J G GM U T ZZ Z+0000 +0000Z GMT+0100 UT+0100".split()
    marks += b"-0000 +0000 - + 0000 -0 +00 -000 +033 +00000 +03300 -00:00 +-0330 -+000 +0a00 -000a +000: +/000 ,0330 *0000".split()
    marks += [b"", b" ", b"-0330 ", b"- 330", b"+ 0330", b"\xda", b"U\xd4", b"G\xcdT", b"\xab0000", b"+000\xb0", b"\xe2\x88\x920330"]
    for zone in marks:
        for utc in (b"2611151020", b"261115102030"):
            yield "U", utc + zone
        for date in (b"15 Nov 26 10:20 ", b"15 Nov 26 10:20:30 ", b"15 Nov 26 10:20"):
            yield "R", date + zone


def others():
    """Texts of another form, and every text that differs by a byte from one that is mapped."""
    for s in b"20261115102030Z 26111510203Z 26111510203 261115102030.5Z 2611151020-03 26-11-15T10:20 0 Z +0000".split():
        yield "U", s
    for s in (b"15 Nov 2026", b"15 Nov 6", b"15 Nov 026", b"15-Nov-26", b"Nov 15 26", b"15 11 26", b"26 Nov", b"Sun,", b""):
        yield "R", s + b" 10:20 UT"
    for s in (b"2611151020Z", b"261115102030-0330", b"9902281020+2359"):
        for other in with_swaps(s):
            yield "U", other
        yield "R", s
    for s in (b"15 Nov 26 10:20 GMT", b"5 Dec 26 10:20 ut", b"Sun, 15 Nov 26 10:20:30 -0330"):
        for other in with_swaps(s):
            yield "R", other
        yield "U", s
    for n in range(60):
        yield "U", b"2611151020Z"[: n % 11].ljust(n, b"1")
        yield "R", b"15 Nov 26 10:20 UT"[: n % 18].ljust(n, b" ")
    yield "U", b"1" * 400
    yield "R", b"Sun, 15 Nov 26 10:20 UT" + b" " * 400


ROOMS = [
    ("U", b"2611151020Z"),
    ("U", b"261115102030-0330"),
    ("U", b"2602291020Z"),
    ("U", b""),
    ("R", b"15 Nov 26 10:20 GMT"),
    ("R", b"Sun, 5 Nov 26 10:20:30 -0330"),
    ("R", b"29 Feb 26 10:20 GMT"),
    ("R", b""),
]


def stored():
    with open("tests/vectors/dates.tsv", "rb") as f:
        for line in f.read().split(b"\n")[:-1]:
            tag, s, number, text = line.split(b"\t")
            yield tag.decode(), s, int(number), text


def main():
    cases = []
    for tag, s, number, text in stored():
        assert answer(tag, s) == (number, text), (tag, s, number, text)
        cases.append((tag, s))
    for group in (days, offsets, month_ends, times, day_numbers, day_names, months, spaces, zones, others):
        cases += group()
    cases = list(dict.fromkeys(case for case in cases if b"\n" not in case[1]))
    stdin, stdout = [], []
    for tag, s in cases:
        stdin.append(tag.encode() + b"\t" + s)
        stdout.append(b"%d\t%s" % answer(tag, s))
    for tag, s in ROOMS:
        stdin.append(tag.lower().encode() + b"\t" + s)
        number, text = answer(tag, s)
        for n in range(BUFFER + 1):
            if number == 0 and len(text) <= n:
                stdout.append(b"0\t%d\t%s" % (len(text), text.ljust(n, b".")))
            else:
                stdout.append(b"%d\t0\t%s" % (number or 6, b"." * n))
    assert sum(len(line) + 1 for line in stdin) <= ROOM
    for name, lines in (("stdin", stdin), ("stdout", stdout)):
        with open(CRATE + name, "wb") as f:
            f.write(b"".join(line + b"\n" for line in lines))
    print(len(cases), "cases, and", len(ROOMS), "in each buffer")


main()
