#!/usr/bin/env python3
"""Every file, function and definition that the documents name exists, where they say that it stands.

Read are README.md and docs/*.md but docs/CHANGES.md, docs/PORT.md, docs/DESIGN-PASS.md and docs/LOOK-BACK.md, which name what went as well; of these only what stands in backquotes counts:
- a path, from the top, from crates/ or from docs/, is there; a file's name alone is some file's;
- `crate/edit`, without an ending, is that crate's must-fail edit;
- names behind a path, or before the word "of" and a path or a crate, are declared in that file or below that folder;
- any other name is declared somewhere, or is one of WORDS: names of mail, of X.400 and of the shell, which nothing here declares.
What is not a name or a path (addresses, record text, commands) is passed over.

The limits that files outside the proofs repeat, the header's among them, are those that the page of promises has. The last line counts what was
checked.
"""

import re
import sys
from pathlib import Path

TOP = Path(__file__).resolve().parent.parent
ENDINGS = (".rt", ".antt", ".py", ".rs", ".h", ".c", ".md", ".tsv", ".txt", ".toml", ".edit", ".jsonl")

# What the documents name that nothing in the project declares.
WORDS = set(
    """
    Ann Ann_Lee Lee RFC-822 JNT-Mail PORTNET SURVEY TOW brack tow gmt GMT EST
    cargo python3 valgrind pv parallel requires ensures search spec read_full i32 u64 usize bool stdin stdout
    """.split()
)

# Limits of the page of promises, and where they stand again.
PAGE = "crates/gateway/specs/Promises.antt"
LIMITS = [
    ("answer_room", "docs/include/gateway.h", r"GATEWAY_ANSWER_ROOM (\d+)"),
    ("answer_room", "docs/examples/map/src/lib.rs", r"ANSWER_ROOM: usize = (\d+)"),
    ("answer_room", "tests/differential/src/library.rs", r"ANSWER_ROOM: usize = (\d+)"),
    ("answer_room", "README.md", r"lend ([\d,]+) bytes"),
    ("longest_address", "docs/include/gateway.h", r"address is over ([\d,]+) bytes"),
    ("longest_address", "docs/src/address.rs", r"LIMIT: usize = (\d+)"),
    ("longest_address", "tests/rules.py", r"LONGEST_ADDRESS = (\d+)"),
    ("longest_address", "README.md", r"address is over ([\d,]+) bytes"),
]

NAME = re.compile(r"[A-Za-z_][A-Za-z0-9_'·-]*$")
DECLARED = {
    ".rt": re.compile(r"\b(?:fn|struct|enum|const|mod|type|impl)\s+([A-Za-z_]\w*)|^(?:pub )?use [\w:]+::(\w+);|^\s*(?:pub )?([a-z_]\w*)\s*:|^\s+([A-Z]\w*)(?:\(|,|\s*$)", re.M),
    ".antt": re.compile(r"^\s*(?:unfoldable |abbrev |pub |record |data )*([^\s:(){}]+)(?:\s+\(.*?\))*\s*:", re.M),
    ".rs": re.compile(r"\b(?:fn|struct|enum|const|mod|type|trait)\s+([A-Za-z_]\w*)"),
    ".py": re.compile(r"^\s*(?:def|class)\s+(\w+)|^([A-Z_]+)\s*=", re.M),
    ".h": re.compile(r"\b(\w+)\s*\(|#define\s+(\w+)|\bstruct\s+(\w+)"),
    ".c": re.compile(r"\b(\w+)\s*\("),
    ".toml": re.compile(r'^name = "(.*)"', re.M),
    "": re.compile(r"\$\{([A-Z_]+)|^(\w+)\(\)", re.M),
}
RECORDS = re.compile(r"^\s*(?:pub )?(?:record|data)\s+([^\s(){}:]+)", re.M)


def declared(path):
    """The names that a file declares."""
    pattern = DECLARED.get(path.suffix)
    if pattern is None:
        return set()
    text = path.read_text(errors="replace")
    names = {name for found in pattern.findall(text) for name in ((found,) if isinstance(found, str) else found) if name}
    if path.suffix == ".antt":
        names |= set(RECORDS.findall(text))
    return names


def tracked():
    """The project's files: not what is built, nor what git keeps."""
    built = {"target", "out", ".git", "__pycache__"}
    return [p for p in TOP.rglob("*") if p.is_file() and not built & set(p.relative_to(TOP).parts)]


FILES = tracked()
NAMES = {p: declared(p) for p in FILES}
FOLDERS = {p.parent for p in FILES} | {p.parent.parent for p in FILES}
EVERY = (
    set().union(*NAMES.values())
    | {p.name for p in (TOP / "crates").iterdir()}
    | {p.stem for p in FILES}
    | {p.name for p in FILES}
)


def places(text):
    """The files or folders that a path can stand for."""
    text = text.rstrip("/")
    found = [path for base in ("", "crates", "docs", "tests") for path in (TOP / base).glob(text)]
    return found or [p for p in [*FILES, *FOLDERS] if str(p).endswith("/" + text)]


def is_path(text):
    return " " not in text and (text.endswith(ENDINGS) or text.endswith("/")) and not text.startswith("/") and not set("@<") & set(text)


def is_edit(text):
    crate, _, edit = text.partition("/")
    return bool(edit) and "/" not in edit and (TOP / "crates" / crate).is_dir() and re.fullmatch(r"\w+", edit) is not None


def stands(name, paths):
    """Whether a name is declared in one of the files, or below one of the folders."""
    below = [p for p in FILES if any(p == path or path in p.parents for path in paths)]
    return any(name in NAMES[p] or name == p.stem for p in below)


def spans(line):
    """What stands in backquotes, each with what stands before it since the last."""
    at = 0
    for found in re.finditer(r"`([^`]+)`", line):
        yield line[at : found.start()], found.group(1)
        at = found.end()


def check(where, line, wrong):
    """Checks one line, and returns how many names and paths it has."""
    held, paths, crate, count = [], [], None, 0
    for before, text in spans(line):
        joined = before.strip(" ,") in ("", "and", "or")
        if not joined:
            paths = []
        if before.strip() == "of" and (TOP / "crates" / text).is_dir():
            count += 1
            wrong += [f"{where}: {name} is not in {text}" for name in held if not stands(name, [TOP / "crates" / text])]
            held = []
        elif is_path(text):
            count += 1
            paths = places(text)
            if not paths:
                wrong.append(f"{where}: no file {text}")
            elif before.strip() == "of":
                wrong += [f"{where}: {name} is not in {text}" for name in held if not stands(name, paths)]
                paths = []
            held = []
        elif is_edit(text):
            count += 1
            crate = text.partition("/")[0]
            if not (TOP / "crates" / crate / "must-fail" / (text.partition("/")[2] + ".edit")).exists():
                wrong.append(f"{where}: no edit {text}")
        elif NAME.match(text) and len(text) > 2:
            count += 1
            held = held + [text] if joined else [text]
            is_edit_too = crate and (TOP / "crates" / crate / "must-fail" / (text + ".edit")).exists()
            if paths and not is_edit_too and not stands(text, paths):
                wrong.append(f"{where}: {text} is not in {paths[0].relative_to(TOP)}")
            elif not (text in EVERY or text in WORDS or is_edit_too or text.startswith("_") and any(name.endswith(text) for name in EVERY)):
                wrong.append(f"{where}: nothing declares {text}")
        else:
            held, paths = [], []
    return count


def paragraphs(text):
    """The paragraphs, points of lists and rows of tables, each with the number of its first line; no code."""
    code, block, start = False, [], 0
    for number, line in enumerate(text.split("\n") + [""], 1):
        code ^= line.startswith("```")
        apart = code or not line.strip() or line.startswith(("```", "|", "#", "    ", "- "))
        if apart and block:
            yield start, " ".join(block)
            block = []
        if line.strip() and not code and not line.startswith(("```", "    ")):
            start = start if block else number
            block.append(line.strip())


def check_limits(wrong):
    """Checks that each limit is the page's wherever it stands again, and returns how many places there are."""
    page = (TOP / PAGE).read_text()
    for name, path, pattern in LIMITS:
        proved = re.findall(rf"\b{name} ≡ (\d+)", page)
        found = [number.replace(",", "") for number in re.findall(pattern, (TOP / path).read_text())]
        if len(proved) != 1 or not found or set(found) != set(proved):
            wrong.append(f"{path}: {name} is {found}, and the page has {proved}")
    return len(LIMITS)


def main():
    wrong = []
    count = check_limits(wrong)
    for document in [TOP / "README.md", *sorted((TOP / "docs").glob("*.md"))]:
        if document.name not in ("CHANGES.md", "PORT.md", "DESIGN-PASS.md", "LOOK-BACK.md"):
            for number, block in paragraphs(document.read_text()):
                count += check(f"{document.relative_to(TOP)}:{number}", block, wrong)
    for line in wrong:
        print(line)
    print(f"documents: {count} names, paths and limits, {len(wrong)} wrong")
    return 1 if wrong or count == 0 else 0


if __name__ == "__main__":
    sys.exit(main())
