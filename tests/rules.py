"""Document 01's rules of record text, names, quoting and coding, with request 12's common names, written from the papers in plain Python for
the tests.

Nothing here is taken from the library or its definitions: texts are matched by regular expressions, records are dictionaries."""
import re

PRINTABLE = b"ABCDEFGHIJKLMNOPQRSTUVWXYZabcdefghijklmnopqrstuvwxyz0123456789 '+,-./:=?()"
ATOM = bytes(b for b in range(33, 127) if b not in b'()<>@,;:\\".[]')
BOUND = {"ADMD": 16, "PRMD": 16, "O": 64, "OU": 32, "S": 40, "G": 16, "I": 5, "GQ": 3, "CN": 64}
LEVELS = ["C", "ADMD", "PRMD", "O"]
PERSONAL = ["S", "G", "I", "GQ"]
# The attributes that a record has once, and the keys that may not be repeated.
SINGLES = LEVELS + ["CN"] + PERSONAL
ONCE = SINGLES + ["PN"]
LONGEST_ADDRESS = 2304

_QUOTED = rb"(?:[^/=$]|\$[A-Za-z0-9 '+,\-./:=?()])*"
_SEGMENT = rb"/(?:[Dd][Dd]\.(?P<type>" + _QUOTED + rb")|(?P<key>[A-Za-z0-9-]+))=(?P<value>" + _QUOTED + rb")"
_TEXT = re.compile(rb"(?:" + re.sub(rb"\?P<\w+>", b"?:", _SEGMENT) + rb")+/", re.S)
_ONE = re.compile(_SEGMENT, re.S)


def unquote(s):
    return re.sub(rb"\$(.)", rb"\1", s, flags=re.S)


def quote(s):
    return re.sub(rb"([/=])", rb"$\1", s)


def well_spaced(s):
    return not (s.startswith(b" ") or s.endswith(b" ") or b"  " in s)


def is_text(s):
    return s != b"" and all(b in PRINTABLE for b in s) and well_spaced(s)


def keeps_rule(key, s):
    if key == "C":
        return bool(re.fullmatch(rb"[A-Za-z]{2}|[0-9]{3}", s))
    if key == "ADMD" and s == b" ":
        return True
    return is_text(s) and len(s) <= BOUND[key]


def read_segments(text):
    """The segments of a record text, as (key, type, value), or None."""
    if not _TEXT.fullmatch(text):
        return None
    found, at = [], 0
    while at < len(text) - 1:
        m = _ONE.match(text, at)
        at = m.end()
        if m.group("type") is not None:
            found.append(("DD", unquote(m.group("type")), unquote(m.group("value"))))
        else:
            found.append((m.group("key").decode().upper(), None, unquote(m.group("value"))))
    return found


def read_name(s):
    """The given name, initials and surname of a text, or None."""
    given, initials = b"", b""
    m = re.match(rb"([^.]{2,})\.", s, re.S)
    if m:
        given, s = m.group(1), s[m.end() :]
    while re.match(rb"[A-Za-z]\.", s):
        initials, s = initials + s[:1], s[2:]
    return (given, initials, s) if s else None


class Refused(Exception):
    pass


class Again(Exception):
    pass


def empty():
    return {"one": {}, "OU": [], "DD": []}


def put(record, key, value):
    if not keeps_rule(key, value) or key in record["one"]:
        raise Refused
    record["one"][key] = value


def put_unit(record, value):
    if not keeps_rule("OU", value) or len(record["OU"]) == 4:
        raise Refused
    record["OU"].append(value)


def put_dd(record, kind, value):
    if not (is_text(kind) and len(kind) <= 8 and is_text(value) and len(value) <= 128) or len(record["DD"]) == 4:
        raise Refused
    record["DD"].append((kind, value))


def complete(record):
    if "C" in record["one"] and "ADMD" not in record["one"]:
        record["one"]["ADMD"] = b" "


def apply_segments(record, settled, segments):
    """What the segments name, put into a record whose first levels are settled."""
    if any(k in LEVELS[:settled] for k, _, _ in segments):
        raise Again
    once = [k for k, _, _ in segments if k in ONCE]
    if len(set(once)) < len(once) or ("PN" in once and any(k in once for k in PERSONAL)):
        raise Refused
    for key, kind, value in segments:
        if key == "RFC-822":
            put_dd(record, b"RFC-822", value)
        elif key == "DD" and kind is not None:
            put_dd(record, kind, value)
        elif key == "PN":
            put_name(record, read_name(value))
        elif key in SINGLES:
            put(record, key, value)
        elif key != "OU":
            raise Refused
    for key, _, value in reversed(segments):
        if key == "OU":
            put_unit(record, value)
    complete(record)


def put_name(record, name):
    if name is None:
        raise Refused
    for key, value in zip(("G", "I", "S"), name):
        if value:
            put(record, key, value)


def canonical(record):
    one = record["one"]
    return (
        "C" in one
        and "ADMD" in one
        and ("S" in one or not any(k in one for k in ("G", "I", "GQ")))
        and ("S" in one or "CN" in one or record["DD"] != [])
    )


def left(record, n):
    """What is left of a record when its first n levels are left out."""
    one = {k: v for k, v in record["one"].items() if k not in LEVELS[:n]}
    return {"one": one, "OU": record["OU"][max(n - 4, 0) :], "DD": record["DD"]}


def record_text(record):
    one = record["one"]
    parts = [(b"RFC-822" if t.upper() == b"RFC-822" else b"DD." + quote(t), v) for t, v in record["DD"]]
    parts += [(k.encode(), one[k]) for k in ("CN", "G", "I", "S", "GQ") if k in one]
    parts += [(b"OU", v) for v in reversed(record["OU"])]
    parts += [(k.encode(), one[k]) for k in ("O", "PRMD", "ADMD", "C") if k in one]
    return b"".join(b"/" + k + b"=" + quote(v) for k, v in parts) + b"/"


def longest_record():
    """The record with the longest text: every bound is full, and `$` is written before each character but C's."""
    full = {key: b"=" * bound for key, bound in BOUND.items()}
    units = [full.pop("OU")] * 4
    return {"one": {**full, "C": b"123"}, "OU": units, "DD": [(b"=" * 8, b"=" * 128)] * 4}


def short_form(record):
    """The short form of a record of which only a name is left, or None."""
    one = record["one"]
    if record["OU"] or record["DD"] or "S" not in one or any(k in one for k in LEVELS + ["GQ", "CN"]):
        return None
    given, initials, surname = one.get("G", b""), one.get("I", b""), one["S"]
    if not re.fullmatch(rb"[A-Za-z]*", initials) or (given and (len(given) < 2 or b"." in given)):
        return None
    if b"." in surname and (b"." in surname[:2] or not (given or initials)):
        return None
    text = (given + b"." if given else b"") + b"".join(bytes([b]) + b"." for b in initials) + surname
    return None if text[:1] == b"/" else text


def local_text(record):
    short = short_form(record)
    return record_text(record) if short is None else short


def is_atoms(s):
    return all(p != b"" and all(b in ATOM for b in p) for p in s.split(b"."))
