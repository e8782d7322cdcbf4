#!/usr/bin/env python3
"""Writes the cases of crates/restricted_cases (its stdin) and what must come out (its stdout).

It follows request 9 by itself, in plain Python with one pattern for what coded text is made of, and runs nothing of the library. The cases
of tests/vectors/restricted.tsv, whose answers are of an implementation that was written apart from the library, are among them, and what is
worked out here must agree with each. Run it from the repository's root after a change to the cases; `git diff` then shows what moved."""
import base64
import re

CRATE = "crates/restricted_cases/"
# Standard input, at most; a text, at most; a buffer in which every answer fits.
ROOM = 262144
TEXT = 2048
LARGE = 4096

# RFC 1137: what stands for itself, and the short forms; the last two are read alone.
SPECIALS = b'()<>@,;:\\".[]'
PLAIN = bytes(b for b in range(33, 127) if b not in b"_#" and (b not in SPECIALS or b in b"@."))
SHORT = dict(zip(b"ulrmcbhes", b"_(),:\\#=/"))
LETTER = {char: letter for letter, char in SHORT.items()}
GROUP = re.compile(rb"([%s])|(_)|#([%s])#|#([0-9]{3})#" % (re.escape(PLAIN), b"ulrmcbhesULRMCBHES"))


# The rules


def code_char(b):
    if b in PLAIN:
        return bytes([b])
    if b == 32:
        return b"_"
    return b"#%c#" % LETTER[b] if b in LETTER else b"#%03d#" % b


def coded(s):
    return b"".join(map(code_char, s))


def decoded(s):
    text, at = bytearray(), 0
    while at < len(s):
        found = GROUP.match(s, at)
        if not found:
            return s
        plain, space, letter, number = found.groups()
        b = plain[0] if plain else 32 if space else SHORT[letter.lower()[0]] if letter else int(number)
        if b > 127:
            return s
        text.append(b)
        at = found.end()
    return bytes(text)


def answer(tag, s, room):
    """The number, and the text."""
    if any(b > 127 for b in s):
        return 1, b""
    text = coded(s) if tag == "E" else decoded(s)
    return (0, text) if len(text) <= room else (6, b"")


# The cases: texts, each taken both ways


def single_bytes():
    """Every byte, alone and between letters."""
    for b in range(256):
        yield bytes([b])
        yield b"a%cb" % b


def pairs():
    """Every pair of the characters that the rules name, with some of each other sort."""
    marks = SPECIALS + b" _#=/~`^!?$*-'|" + b"uHe017Az" + b"\x00\x1f\x7f\x80\xff"
    for a in marks:
        for b in marks:
            yield bytes([a, b])


def short_forms():
    """Each letter in both cases, between `#`, unclosed, doubled, and with a digit or a space beside it."""
    for letter in b"abcdefghijklmnopqrstuvwxyz":
        for b in (letter, letter - 32):
            for form in (b"#%c#", b"x#%c#y", b"#%c", b"%c#", b"##%c#", b"#%c##", b"#%c%c#", b"#%c0#", b"# %c#", b"#%c #", b"#%c#_"):
                yield form.replace(b"%c", bytes([b]))
    for b in range(256):
        yield b"#%c#" % b


def numbers():
    """Every number of three digits, alone; about the bound with what stands beside it; and what is no number."""
    for n in range(1000):
        yield b"#%03d#" % n
    for n in (0, 32, 35, 95, 97, 126, 127, 128, 199, 200, 255, 256, 999):
        for form in (b"x#%03d#y", b"#%03d", b"%03d#", b"##%03d#", b"#%03d##", b"#%d#", b"#%04d#", b"#%02d#", b"_#%03d#_", b"#%03d#\xff", b"#h##%03d#"):
            yield form % n
    for text in (b"#-01#", b"#+12#", b"# 12#", b"#1 2#", b"#12 #", b"#0x1#", b"#01:#", b"#/00#", b"#:00#", b"#0/0#", b"#0:0#", b"#00/#", b"#00:#", b"#\xb2\xb2\xb2#"):
        yield text


def unclosed():
    """Groups cut at each place, or with a byte put in, alone and behind what parses; the bad place early, late, and before a byte over 127."""
    for group in (b"#h#", b"#H#", b"#126#", b"#000#", b"#128#"):
        for k in range(len(group) + 1):
            for front, back in ((b"", b""), (b"a_", b""), (b"", b"_a"), (b"#u#", b"#u#"), (b"", b"\x80"), (b"\x80", b""), (b"", b" ")):
                yield front + group[:k] + back
                yield front + group[:k] + b"_" + group[k:] + back
    for n in range(1, 12):
        yield b"#" * n
        yield b"#" * n + b"h" + b"#" * n
        yield b"_" * n
    for n in (1, 20):
        for bad in (b"#", b" ", b"(", b"#128#", b"\x80"):
            for text in (b"a" * n, b"#u#" * n, b"_" * n, b"#032#" * n):
                yield bad + text
                yield text + bad
                yield text + bad + text
                yield text + bad + text + b"\xff"


def whole_texts():
    """The document's examples, request 9's, dots and `@` anywhere, each character, and long texts."""
    yield from (b"", b"Steve.Kille", b"Steve Kille", b"Steve_Kille", b"argle#~", b"argle#h##126#", b"argle#h#~", b"argle#h#~#126#")
    yield from (b".", b"..", b"a.b", b".a", b"a.", b"a..b", b"@", b"a@b", b"a.b@c.d", b"/I=J/S=Linnimann/G=R/", b"#s#I#e#J", b"#046#", b"#064#")
    yield from map(bytes, ([b] for b in range(128)))
    yield from (bytes(range(128)), bytes(range(256)), bytes(range(127, -1, -1)), bytes([0, 127]) * 50, b"a" * 100, b" " * 100, b"#" * 100)
    for n in (1, 2, 3, 10):
        yield b"#%s#" % (b"u" * n)
        yield b"".join(b"#%03d#" % b for b in range(n))
    text = b"Joe (\"the\" pilot), yard_7\\#3:\t<joe;x>[~]=/?"
    for n in range(0, len(text), 4):
        yield text[:n]
        yield text[n:]
        yield coded(text)[: 2 * n]
        yield coded(text)[2 * n :].upper()


def large_room(tag, s):
    yield LARGE


def rooms(tag, s):
    """The large buffer; those about the length of the answer, and none."""
    yield LARGE
    number, text = answer(tag, s, LARGE)
    if number == 0:
        for room in (len(text) - 1, len(text), len(text) + 1, 0):
            yield max(room, 0)


def stored():
    with open("tests/vectors/restricted.tsv", encoding="ascii") as f:
        for line in f:
            tag, s, room, number, text = line.rstrip("\n").split("\t")
            yield tag, base64.b64decode(s), int(room), int(number), base64.b64decode(text)


def main():
    cases = []
    for tag, s, room, number, text in stored():
        assert answer(tag, s, room) == (number, text), (tag, s, room, number, text)
        cases.append((tag, s, room))
    for group in (single_bytes, pairs, short_forms, numbers, unclosed, whole_texts):
        about = rooms if group is whole_texts else large_room
        cases += ((tag, s, room) for s in group() for tag in "DE" for room in about(tag, s))
    cases = list(dict.fromkeys(cases))
    stdin, stdout = [], []
    for tag, s, room in cases:
        assert len(s) <= TEXT
        number, text = answer(tag, s, room)
        if tag == "E" and number == 0:
            assert decoded(text) == s, s
        stdin.append("%s %04d %s" % (tag, room, s.hex()))
        stdout.append("%d %d %s =" % (number, len(text), text.hex()))
    assert sum(len(line) + 1 for line in stdin) <= ROOM
    for name, lines in (("stdin", stdin), ("stdout", stdout)):
        with open(CRATE + name, "w", encoding="ascii") as f:
            f.writelines(line + "\n" for line in lines)
    print(len(cases), "cases")


main()
