"""Document 01's two mappings, "Address to record" and "Record to address", in plain Python for the tests. A record is the dictionary of
tests/rules.py; nothing here is taken from the library or its definitions."""
import rules
from address_cases import code, decode, readable, shape, unquote
from table_cases import _PART, load, longest_domain, longest_path

KEYS = ["C", "ADMD", "PRMD", "O", "OU", "OU", "OU", "OU"]


def put_levels(record, tokens):
    """Puts tokens at the levels from C on; raises rules.Refused where one breaks its rule."""
    for key, token in zip(KEYS, tokens):
        if token and key == "OU":
            rules.put_unit(record, token)
        elif token:
            rules.put(record, key, token)


def settle(table, domain):
    """The tokens that a domain settles, or the clause by which the address is carried whole."""
    gateway, d, _ = table
    if domain.lower() == gateway[1].lower():
        return []
    i = longest_domain(d, domain)
    if i is None:
        return "no row"
    left = domain.split(b".")[: -len(d[i][1].split(b"."))]
    tokens = d[i][2] + left[::-1]
    if len(tokens) > 8:
        return "past OU4"
    try:
        put_levels(rules.empty(), tokens)
    except rules.Refused:
        return "past a bound"
    return tokens


def key_faults(segments):
    """The clauses on keys that hold of the segments of a record text."""
    keys = [k for k, _, _ in segments]
    known = rules.ONCE + ["OU", "RFC-822"]
    if any(k not in known and not (k == "DD" and t is not None) for k, t, _ in segments):
        yield "unknown key"
    if any(keys.count(k) > 1 for k in rules.ONCE):
        yield "repeated key"
    if "PN" in keys and any(k in keys for k in rules.PERSONAL):
        yield "PN beside a name"
    if "PN" in keys and rules.read_name([v for k, _, v in segments if k == "PN"][0]) is None:
        yield "PN is no name"


def read(tokens, local):
    """The record of a local part over settled tokens; raises rules.Refused or rules.Again."""
    record = rules.empty()
    put_levels(record, tokens)
    segments = rules.read_segments(local)
    if segments is None:
        rules.put_name(record, rules.read_name(local))
        rules.complete(record)
    else:
        rules.apply_segments(record, len(tokens), segments)
    return record


def clauses(table, s):
    """The clauses of "carried whole" that hold of an address of accepted shape."""
    local, quoted, domain = shape(s)
    local, tokens = unquote(local, quoted), settle(table, domain)
    found = [tokens] if isinstance(tokens, str) else []
    if not all(_PART.fullmatch(p) for p in domain.split(b".")):
        found.append("no domain part")
    if local == b"":
        found.append("empty")
    if not rules.well_spaced(local):
        found.append("spaces")
    if any(b not in rules.PRINTABLE + b"$" for b in local):
        found.append("other character")
    if not readable(local):
        return found
    segments = rules.read_segments(local)
    if segments is None and rules.read_name(local) is None:
        return found + ["no reading"]
    faults = list(key_faults(segments or []))
    found += faults
    if isinstance(tokens, str):
        return found
    try:
        if not rules.canonical(read(tokens, local)):
            found.append("not canonical")
    except rules.Again:
        found.append("named again")
    except rules.Refused:
        if not faults:
            found.append("not canonical")
    return found


def carry(table, s):
    """The carrier of an address."""
    record = rules.empty()
    put_levels(record, table[0][2])
    rules.put_dd(record, b"RFC-822", code(s))
    return record


def to_record(text, s):
    """The number, the line and the record of an address under a table text."""
    table = load(text)
    if isinstance(table, int):
        return 7, table, None
    if len(s) > rules.LONGEST_ADDRESS:
        return 2, 0, None
    if shape(s) is None:
        return 1, 0, None
    if clauses(table, s):
        return (3, 0, None) if len(code(s)) > 128 else (0, 0, carry(table, s))
    local, quoted, domain = shape(s)
    return 0, 0, read(settle(table, domain), unquote(local, quoted))


def is_canonical(record):
    """Whether any record at all, its values given as they stand, is canonical."""
    one = record["one"]
    kept = all(rules.keeps_rule(k, v) for k, v in one.items()) and all(rules.keeps_rule("OU", u) for u in record["OU"])
    dds = all(rules.is_text(t) and len(t) <= 8 and rules.is_text(v) and len(v) <= 128 for t, v in record["DD"])
    return kept and dds and len(record["OU"]) <= 4 and len(record["DD"]) <= 4 and rules.canonical(record)


def levels(record):
    return ([record["one"].get(k, b"") for k in rules.LEVELS] + record["OU"] + [b""] * 4)[:8]


def is_carrier(table, record):
    path = [f.lower() for f in table[0][2] + [b""] * 8][:8]
    named = any(k in record["one"] for k in rules.PERSONAL + ["CN"])
    dds = record["DD"]
    return [f.lower() for f in levels(record)] == path and not named and len(dds) == 1 and dds[0][0].lower() == b"rfc-822"


def address_of(table, record):
    """The address of a canonical record, or None where a carrier has none."""
    gateway, _, r = table
    if is_carrier(table, record):
        s = decode(record["DD"][0][1])
        return None if s is None or shape(s) is None else s
    own, n, domain = levels(record), 0, gateway[1]
    i = longest_path(r, own)
    if i is not None:
        n, domain = len(r[i][2]), r[i][1]
        while n < 8 and _PART.fullmatch(own[n]):
            n, domain = n + 1, own[n] + b"." + domain
    u = rules.local_text(rules.left(record, n))
    return (u if rules.is_atoms(u) else b'"' + u.replace(b"\\", b"\\\\").replace(b'"', b'\\"') + b'"') + b"@" + domain


def to_address(text, record, room):
    """The number, the line and the text of a record's address in a buffer, under a table text."""
    table = load(text)
    if isinstance(table, int):
        return 7, table, b""
    if not is_canonical(record):
        return 4, 0, b""
    s = address_of(table, record)
    if s is None:
        return 5, 0, b""
    return (6, 0, b"") if room < len(s) else (0, 0, s)
