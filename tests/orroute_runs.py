#!/usr/bin/env python3
"""Runs the compiled `orroute` as an operator's machine might: over every run of tests/vectors/, from a file and through pipes that are cut
at odd places, into a slow reader, with lines at the limit, and with tables that are missing, no files, unreadable, or at the longest size.

    python3 tests/orroute_runs.py [PROGRAM [PLAIN]]

What must come out is stored beside each run; where nothing is stored, it is what the plain program of docs/src/ writes. Run it from the
repository's root after `tools/build orroute` and tests/plain_vectors.py. The last line counts the runs; the first that differs ends it."""
import fcntl
import os
import shutil
import stat
import subprocess
import sys
import tempfile
import termios
import time

import stored

PROGRAM = os.path.abspath(sys.argv[1] if len(sys.argv) > 1 else "target/bin/orroute")
PLAIN = os.path.abspath(sys.argv[2] if len(sys.argv) > 2 else "docs/src/target/release/plain-orroute")
# No run takes a second; one that hangs is stopped here.
TIMEOUT = 60
NOBODY = 65534
done = 0


def read(path):
    with open(path, "rb") as f:
        return f.read()


def judge(what, status, out, expected):
    global done
    if status != 0 or out != expected:
        at = next((i for i, (a, b) in enumerate(zip(out, expected)) if a != b), min(len(out), len(expected)))
        print(f"{what}: status {status}, {len(out)} bytes, {len(expected)} expected, the first difference at byte {at}")
        sys.exit(1)
    done += 1


def run(what, where, text, expected, **more):
    """The whole input at once, from memory."""
    out = subprocess.run([PROGRAM], input=text, stdout=subprocess.PIPE, cwd=where, timeout=TIMEOUT, **more)
    judge(what, out.returncode, out.stdout, expected)


def run_file(what, where, path, expected):
    with open(path, "rb") as given:
        out = subprocess.run([PROGRAM], stdin=given, stdout=subprocess.PIPE, cwd=where, timeout=TIMEOUT)
    judge(what, out.returncode, out.stdout, expected)


def waiting(pipe):
    """How many bytes stand in a pipe."""
    return int.from_bytes(fcntl.ioctl(pipe, termios.FIONREAD, b"\0" * 4), sys.byteorder)


def run_cut(what, where, pieces, expected):
    """A piece at a time, the next only when the one before has been taken, so that each read gets just one piece."""
    with tempfile.TemporaryFile() as out:
        program = subprocess.Popen([PROGRAM], stdin=subprocess.PIPE, stdout=out, cwd=where, bufsize=0)
        limit = time.monotonic() + TIMEOUT
        try:
            for piece in pieces:
                program.stdin.write(piece)
                while waiting(program.stdin) > 0 and program.poll() is None:
                    if time.monotonic() > limit:
                        program.kill()
                    os.sched_yield()
        except BrokenPipeError:
            pass  # it ended before its input did, which what it wrote will show
        program.stdin.close()
        status = program.wait(timeout=TIMEOUT)
        out.seek(0)
        judge(what, status, out.read(), expected)


def run_slow_reader(what, where, text, expected):
    """A reader that takes little at a time from a pipe that holds little."""
    with tempfile.TemporaryFile() as given:
        given.write(text)
        given.seek(0)
        program = subprocess.Popen([PROGRAM], stdin=given, stdout=subprocess.PIPE, cwd=where, bufsize=0)
        fcntl.fcntl(program.stdout, 1031, 4096)  # F_SETPIPE_SZ
        out = b""
        while piece := os.read(program.stdout.fileno(), 777):
            out += piece
            time.sleep(0.0005)
        judge(what, program.wait(timeout=TIMEOUT), out, expected)


def pieces_of(text, size):
    return [text[at : at + size] for at in range(0, len(text), size)]


def pieces_within_lines(text):
    """Cut in the middle of each line, so that a piece is the end of one line and the beginning of the next."""
    cuts, start = [0], 0
    for line in text.splitlines(keepends=True):
        cuts.append(start + len(line) // 2)
        start += len(line)
    cuts.append(len(text))
    return [text[a:b] for a, b in zip(cuts, cuts[1:]) if a < b]


def plain(where, text):
    return subprocess.run([PLAIN], input=text, stdout=subprocess.PIPE, cwd=where, check=True, timeout=TIMEOUT).stdout


def stored_runs():
    for folder in stored.runs():
        where, text, expected = os.path.abspath(folder), read(folder + "stdin"), read(folder + "expected")
        run(folder + " whole", where, text, expected)
        run_file(folder + " from a file", where, folder + "stdin", expected)
        run_cut(folder + " by 1 byte", where, pieces_of(text, 1), expected)
        run_cut(folder + " by 7 bytes", where, pieces_of(text, 7), expected)
        run_cut(folder + " within lines", where, pieces_within_lines(text), expected)
        run_cut(folder + " by 4,096 bytes", where, pieces_of(text, 4096), expected)
        run_cut(folder + " by 4,097 bytes", where, pieces_of(text, 4097), expected)


def edges_of_lines():
    """Lines at the limit, cut where the limit falls, and with and without the last LF."""
    where = os.path.abspath("tests/vectors/runs/000")
    good = b"A\tAnn.Lee@brack.tow.test\n"
    for length in (4095, 4096, 4097, 4098, 8191, 8192, 8193, 20000):
        for before in (b"", good):
            for behind in (b"", b"\n", b"\n" + good, b"\n" + good[:-1], b"\n\n"):
                text = before + b"A\t" + b"x" * (length - 2) + behind
                expected = plain(where, text)
                what = f"a line of {length} bytes before {behind!r}"
                run(what, where, text, expected)
                run_cut(what + ", cut", where, [text[:4096], text[4096:4097], text[4097:4100], text[4100:]], expected)
    for text in (b"", b"\n", b"\n\n", b"A", b"A\t", b"O\t", b"A\t\n", b"\0", b"\r\n", good[:-1]):
        run(f"the input {text!r}", where, text, plain(where, text))
    many = good * 40000
    run("1 MB", where, many, plain(where, many))
    run_slow_reader("into a slow reader", where, good * 4000, plain(where, good * 4000))


def tables():
    """Tables that cannot be read count as empty, and no byte of a table is left out or added."""
    good, other = b"A\tAnn.Lee@gw.test\n", b"nothing\n"
    text = good + other + b"O\t/S=Lee/ADMD=P/C=XY/\n" + good[:-1]
    refused = b"7\n1\n7\n7\n"
    with tempfile.TemporaryDirectory() as where:
        name = where + "/table.tsv"
        run("no table", where, text, refused)
        os.mkdir(name)
        run("a table that is a directory", where, text, refused)
        os.rmdir(name)
        os.symlink("table.tsv", name)
        run("a table that is a link to itself", where, text, refused)
        os.remove(name)
        unreadable(where, name, text, refused)
        line = b"G\tgw.test\tXY\tP\n"
        for size in (len(line), 65534, 65535, 65536, 65537, 65538, 131072, 131072 + len(line), 1 << 20):
            table = table_of_size(line, size)
            with open(name, "wb") as f:
                f.write(table)
            expected = plain(where, text)
            if (expected == refused) != (size > 65536):
                sys.exit(f"a table of {size} bytes: the plain program does not judge it by its size")
            run(f"a table of {size} bytes", where, text, expected)
        for what, table in (
            ("a table without its last LF", line[:-1]),
            ("a table whose first 65,536 bytes would do", table_of_size(line, 65536) + b"R\tx\tXY\tP\n"),
        ):
            with open(name, "wb") as f:
                f.write(table)
            run(what, where, text, refused)


def table_of_size(line, size):
    """A table of this size, well-formed but for it."""
    table, number = line, 0
    while len(table) < size:
        left = size - len(table)
        length = 180 if left > 360 else left // 2 if left > 180 else left
        front = b"D\td%04d\tXY\tP\tQ\t" % number
        units = length - len(front) - 1
        value = b"o" * min(units, 60)
        while units > len(value):
            value += (b"\t" + b"u" * 32)[: units - len(value)] if units - len(value) > 1 else b"o"
        table, number = table + front + value + b"\n", number + 1
    return table


def unreadable(where, name, text, refused):
    """A table that this user may not read. Root may read any, so the program is then run as nobody, from a copy that nobody can reach."""
    with open(name, "wb") as f:
        f.write(b"G\tgw.test\tXY\tP\n")
    os.chmod(name, 0)
    if os.geteuid() != 0:
        run("a table that may not be read", where, text, refused)
    else:
        global PROGRAM
        kept = PROGRAM
        os.chmod(where, 0o755)
        PROGRAM = shutil.copy(PROGRAM, where + "/program")
        os.chmod(PROGRAM, 0o755)
        run("a table that may not be read", where, text, refused, user=NOBODY, group=NOBODY, extra_groups=[])
        os.remove(PROGRAM)
        PROGRAM = kept
    os.chmod(name, stat.S_IRUSR | stat.S_IWUSR)


def main():
    stored_runs()
    edges_of_lines()
    tables()
    print(f"{done} runs of the program are as they must be")


if __name__ == "__main__":
    main()
