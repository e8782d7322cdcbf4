#!/usr/bin/env python3
"""Writes the cases of crates/mailbox_cases (its stdin) and what must come out (its stdout).

It follows request 2 by itself, in plain Python, and runs nothing of the library: one pattern cuts a line into tokens, and another, over one
letter for each token, is the grammar. The cases of tests/vectors/mailbox.tsv, whose answers are of an implementation that was written apart from
the library, must agree with what is worked out here; all are written but the longest, of which some are. Run it from the repository's root after
a change to the cases; `git diff` then shows what moved.

A case is a line: the room in four decimal digits, a space, and the bytes of a mailbox line in hexadecimal. So is its answer: the number, the
address's length, the address in hexadecimal, `=` for the rest of the buffer, the phrase's start and its length, and both as if there were room,
one space apart."""
import base64
import itertools
import re

CRATE = "crates/mailbox_cases/"
# Standard input, at most; the longest line; the longest of the buffers.
ROOM = 1048576
LINE = 4200
BUFFER = 4096
LONG = 1000


# The rules

# Text of a comment: ASCII but parentheses, backslash and CR; a fold's CR LF; a backslash and any of ASCII.
COMMENT_TEXT = rb"[\x00-\x0c\x0e-'*-\[\]-\x7f]|\r\n(?=[ \t])|\\[\x00-\x7f]"
COMMENT = rb"\((?:%s)*\)" % COMMENT_TEXT
for _ in range(7):
    COMMENT = rb"\((?:%s|%s)*\)" % (COMMENT_TEXT, COMMENT)
# Bytes 32 to 126; a fold's CR LF, if it is no tab that follows; a backslash and one of them, between which there may be a fold.
QUOTED = rb'"(?:[ !#-\[\]-~]|\r\n(?= )|\\(?:\r\n(?= ))?[ -~])*"'
SPACE = rb"(?:\r\n)?[ \t]"
ATOM = rb"[!#-'*+\-/0-9=?A-Z^-~]+"
TOKEN = re.compile(rb"(?P<gap>%s|%s)|(?P<atom>%s)|(?P<quoted>%s)|(?P<mark>[.@<>,:])" % (SPACE, COMMENT, ATOM, QUOTED))

# The grammar: `a` is an atom, `q` a quoted string, and marks are themselves.
DOMAIN = r"a(?:\.a)*"
ADDRESS = r"(?P<local>[aq](?:\.[aq])*)@(?P<domain>%s)" % DOMAIN
ROUTE = r",*@%s(?:,(?:@%s)?)*:" % (DOMAIN, DOMAIN)
BARE = re.compile(ADDRESS)
NAMED = re.compile(r"(?P<phrase>[aq]+)<(?:%s)?%s>" % (ROUTE, ADDRESS))


def depth(line):
    """How deep comments stand in each other, over the line as it is."""
    now = deepest = 0
    quoted = taken = False
    for b in line:
        if taken:
            taken = False
        elif b == ord("\\"):
            taken = quoted or now > 0
        elif quoted:
            quoted = b != ord('"')
        elif b == ord('"') and now == 0:
            quoted = True
        elif b == ord("("):
            now += 1
            deepest = max(deepest, now)
        elif b == ord(")") and now > 0:
            now -= 1
    return deepest


def tokens(line):
    """One letter for each token, and where they are; None where the line is not made of tokens."""
    letters, places, at = "", [], 0
    while at < len(line):
        found = TOKEN.match(line, at)
        if found is None:
            return None
        at = found.end()
        if found.lastgroup != "gap":
            letters += {"atom": "a", "quoted": "q"}.get(found.lastgroup, found.group().decode())
            places.append(found.span())
    return letters, places


def said(word):
    """What a word says."""
    if not word.startswith(b'"'):
        return word
    return re.sub(rb"\\(.)", rb"\1", word[1:-1].replace(b"\r\n", b""))


def read(line):
    """The number, the address, and the phrase's start and length."""
    if len(line) > 4096:
        return 2, b"", 0, 0
    if depth(line) > 8:
        return 9, b"", 0, 0
    letters, places = tokens(line) or ("", [])
    found = BARE.fullmatch(letters) or NAMED.fullmatch(letters)
    if found is None:
        return 1, b"", 0, 0

    def words(part):
        return [line[slice(*places[i])] for i in range(*found.span(part)) if letters[i] != "."]

    local = b".".join(said(word) for word in words("local"))
    if "q" in found.group("local"):
        local = b'"%s"' % re.sub(rb'(["\\])', rb"\\\1", local)
    address = local + b"@" + b".".join(words("domain"))
    if "<" not in letters:
        return 0, address, 0, 0
    first, last = places[0], places[found.end("phrase") - 1]
    return 0, address, first[0], last[1] - first[0]


def answer(room, line):
    number, address, start, length = read(line)
    return (6, b"", 0, 0) if len(address) > room else (number, address, start, length)


# The cases

WHOLE = rb'Joe "S\"o" (c\)d) <@r.s,@t:a."b c"@d.e>'


def nesting():
    """Comments from seven to ten deep: alone, in every place of a mailbox, beside each other, behind quotes, and open at the end."""
    for n in range(7, 11):
        opened, closed = b"(" * n, b")" * n
        whole = opened + closed
        for form in (
            b"%s", b"%sa@b", b"a@b%s", b"a%s@b", b"a@%sb", b"a.%sb@c", b"a@b%s.c", b"A %s<a@b>", b"A %sB <a@b>", b"%s A <a@b>", b"A <%sa@b>",
            b"A <a@b%s>", b"A <a@b>%s", b"A <%s@r:a@b>", b"A <@%sr:a@b>", b"A <@r%s,@s:a@b>", b"A <@r,%s,@s:a@b>", b"A <@r:%sa@b>", b'"%s"@b',
            b'"\\"%s"@b', b'"\\\\"%s@b', b'"a"%s@b', b'"%s', b'"\\%s"@b', b"\\%sa@b", b"\\\\%sa@b", b")%sa@b", b"a@b, %s", b"[%s]", b"\x80%s", b"%s;",
            b"a@b%s(", b"a@b(x)%s", b'("%s")a@b', b'a@b (") %s (")',
        ):
            yield form % whole
        yield whole * 3 + b"a@b" + whole
        yield opened
        yield b"a@b" + opened
        yield opened + b"\\"
        yield opened + b"\\)" + closed + b"a@b"
        yield opened + b"\\(" + closed + b"a@b"
        yield opened + b"\\\\" + closed + b"a@b"
        yield opened + b"\\\r\n " + closed + b"a@b"
        yield opened + b'"' + closed + b"a@b"
        yield opened + b")()(" + closed + b"a@b"
        yield b"(" + b"()" * n + b")a@b"
        yield b"x(" * n + b")y" * n
        yield b"(x" * n + b"y)" * n + b"a@b"
        yield opened + b"\x80" + closed + b"a@b"
        yield opened + b"\r" + closed + b"a@b"


def folds():
    """White space, folds, halves of folds, comments and marks at each place of a mailbox: between tokens and inside them."""
    pieces = b"\r\n |\r\n\t| |\t|\r\n|\r|\n|\r\n\r\n |\n |(c)|(\r\n )|\"|\\|\\\r\n ".split(b"|")
    for i in range(len(WHOLE) + 1):
        for piece in pieces:
            yield WHOLE[:i] + piece + WHOLE[i:]
    for i in range(len(WHOLE)):
        yield WHOLE[:i] + WHOLE[i + 1 :]
        yield WHOLE[:i]
        yield WHOLE[i:]
    for gap in (b"\r\n ", b"\r\n\t", b"\r\n \r\n ", b" \r\n\t\t", b"\r\n (\r\n )\r\n ", b"\r\n", b"\r", b"\n", b"\r\n\r\n ", b" \r\n", b"\n\r "):
        for line in (b"a@b", b"a.b@c.d", b'"a".b@c', b"A <a@b>", b'A "B"<@r,@s:a@b>'):
            parts = re.findall(rb'"[^"]*"|[a-zA-Z]+|[^a-zA-Z ]', line)
            yield gap.join([b""] + parts + [b""])
            yield gap + line
            yield line + gap


def quoted_words():
    """Quoted strings of three pieces at most, in a local part; of two in a phrase, behind a dot and in front of one."""
    pieces = [b"a", b" ", b".", b"@", b"(", b'\\"', b"\\\\", b"\\a", b"\\ ", b"\r\n ", b"\\\r\n ", b"\r\n\t", b"\t", b"\\", b'"']
    for n in range(4):
        for inner in itertools.product(pieces if n < 3 else pieces[1::2], repeat=n):
            yield b'"%s"@b' % b"".join(inner)
    for n in range(3):
        for inner in itertools.product(pieces[1:], repeat=n):
            yield b'A "%s" <a@b>' % b"".join(inner)
            yield b'a."%s"@b' % b"".join(inner)
    yield from (b'"".a@b', b'a.""@b', b'"".""@b', b'""."".""@b', b'a.b."c".d@e', b'"a b"."c\\"d".e@f')
    yield from (b'"a""b"@c', b'"a"b@c', b'a"b"@c', b'a"b"c<x@y>')


def routes():
    """Routes of hops and commas in every order, up to five of them; and what only looks like a route."""
    for n in range(6):
        for items in itertools.product((b"@r", b",") if n > 3 else (b"@r", b",", b"@r.s", b" , "), repeat=n):
            yield b"A <%s:a@b>" % b"".join(items)
    for hops in (b"@r", b"@r.s.t", b"@ r . s", b"@(c)r(d)", b"@r,@s", b"@r , @s", b"@r,\r\n @s", b"@r,,@s,,", b",,@r", b"@r,@s,@t,@u,@v,@w"):
        for form in (b"A <%s:a@b>", b"A <%s: a@b>", b"A <%s(c):a@b>", b'A <%s:"a b".c@d>'):
            yield form % hops
        for form in (b"<%s:a@b>", b"%s:a@b", b"A %s:a@b", b"A <%s a@b>", b"A <%s:>"):
            yield form % hops
    for hop in (b"r", b"@", b"@.r", b"@r.", b"@r..s", b'@"r"', b"@[1]", b"@r@s", b"@r s", b"a@r", b"@@r", b"@r;", b"@r:@s", b"@r::"):
        yield b"A <%s:a@b>" % hop


def marks():
    """Quotes, parentheses and backslashes in every order, up to four, outside, in quotes and in comments; and at the end."""
    for n in range(5):
        for text in itertools.product((b"(", b")", b'"', b"\\", b"a"), repeat=n):
            text = b"".join(text)
            if n < 4:
                yield text + b"a@b"
                yield b"a@b " + text
                yield b'A "%s" <a@b>' % text
            yield b'"%s"@b' % text
            yield b"(%s)a@b" % text
    fronts = (b"", b"a@b", b"a@b ", b"(", b"a@b (", b"a@b (x", b'"', b'"a', b'A "', b"A <a@b>", b"A <a@b", b"a@b (x)", b'"a"')
    for n in range(1, 6):
        for front in fronts:
            yield front + b"\\" * n
            yield front + b"\\" * n + b"\r\n "


def single_bytes():
    """Each byte in an atom, alone as an atom, between tokens, in quotes and in a comment, the last two behind a backslash too."""
    for b in range(256):
        for form in (
            b"x%cy@z", b"a@z%c", b"%c@z", b"a %c @z", b"%c <a@z>", b"A <@r%c:a@z>", b'"%c"@z', b'"\\%c"@z', b"(%c)a@z", b"(\\%c)a@z",
            b"a@z\r\n%c", b"%c",
        ):
            yield form % b


def grammar():
    """One token taken away, put in, or another in its place, with and without spaces between them."""
    other = (b"a", b'"q"', b".", b"@", b"<", b">", b",", b":", b";", b"[a]", b"(c)")
    for line in (b"a @ b", b'a . "q" @ b . c', b'A "Q" < @ r , @ s : a @ b >'):
        line, edits = tuple(line.split()), []
        for i in range(len(line) + 1):
            edits += [line[:i] + (token,) + line[i:] for token in other]
            edits += [line[:i] + (token,) + line[i + 1 :] for token in other]
            edits += [line[:i] + line[i + 1 :], line[:i]]
        for edit in edits:
            yield b"".join(edit)
            yield b" ".join(edit)
    for n in range(4):
        for line in itertools.product((b"a", b'"q"', b".", b"@", b"<", b">"), repeat=n):
            yield b"".join(line)


def long_lines():
    """About 4,096 bytes; few, since each is long in hexadecimal too."""
    for length in (4096, 4097):
        yield b"a@" + b"b." * 2046 + b"c" * (length - 4094)
        yield b"(" * 8 + b"x" * (length - 19) + b")" * 8 + b"a@b"
        yield b"(" * 9 + b"x" * (length - 21) + b")" * 9 + b"a@b"
    yield b'"' + b"\r\n " * 1364 + b'"@b'
    yield b"A " * 1000 + b"<" + b"@r," * 600 + b":" + b"a." * 100 + b'"' + b"\\\\" * 20 + b'"@b>'


def rooms():
    """Every room up to one over what is needed."""
    for line in (b"a@b", b"a . b @ c", b'"a\\b".c@d', b'"\\"\\\\"@e', b"Joe <@r:a@b>", b'(x) Joe "So" <"a".b@c>', b'""@b', b"a@", b"(" * 9):
        for room in range(len(read(line)[1]) + 2):
            yield room, line


def stored():
    with open("tests/vectors/mailbox.tsv", "rb") as f:
        for row in f.read().split(b"\n")[:-1]:
            line, room, number, address, start, length = row.split(b"\t")
            yield int(room), base64.b64decode(line), (int(number), base64.b64decode(address), int(start), int(length))


def rooms_for(line, which):
    """The longest buffer, or one that is just long enough; now and then one that is a byte short. A refusal is told in any."""
    number, address, _, _ = read(line)
    if number != 0:
        return [0 if which % 2 else BUFFER]
    return [len(address) if which % 2 else BUFFER] + [len(address) - 1] * (which % 8 == 0)


def cases():
    kept, long = [], {}
    for room, line, wanted in stored():
        assert answer(room, line) == wanted, (room, line, wanted, answer(room, line))
        if len(line) <= LONG:
            kept.append((room, line))
        elif len(line) in (4096, 4097):
            # Of the longest, one for each length and number, and one that is as long when it is written.
            long.setdefault((len(line), wanted[0], len(wanted[1]) == len(line)), (room, line))
    known = {line for _, line in kept}
    lines = itertools.chain(nesting(), folds(), quoted_words(), routes(), marks(), single_bytes(), grammar(), long_lines())
    for which, line in enumerate(line for line in dict.fromkeys(lines) if line not in known):
        kept += [(room, line) for room in rooms_for(line, which)]
    return list(dict.fromkeys([*kept, *rooms(), *long.values()]))


def main():
    stdin, stdout = [], []
    for room, line in cases():
        assert len(line) <= LINE
        number, address, *place = answer(room, line)
        stdin.append("%04d %s" % (room, line.hex()))
        stdout.append("%d %d %s = %d %d %d %d" % (number, len(address), address.hex(), *place, *read(line)[2:]))
    sizes = []
    for name, lines in (("stdin", stdin), ("stdout", stdout)):
        with open(CRATE + name, "w", encoding="ascii", newline="\n") as f:
            sizes.append(f.write("".join(line + "\n" for line in lines)))
    assert sizes[0] <= ROOM
    print(len(stdin), "cases,", sizes[0], "bytes; the longest", max(map(len, stdin)), "bytes")


main()
