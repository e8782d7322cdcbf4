"""The stored cases of tests/vectors/, which every script takes from here. Their answers are of an implementation that was written apart from
the library, and a second one confirmed them. The first set is document 01's, moved over to what a request changed in it; each other is of the
rules with the request that it is named for. Paths are from the repository's root."""
import glob
import os
import sys

SETS = ["tests/vectors/", "tests/vectors/common-names/"]


def runs(sets=SETS):
    """The folders of the runs of `orroute`: table.tsv, stdin and expected in each."""
    folders = [folder for where in sets for folder in sorted(glob.glob(where + "runs/*/"))]
    if not folders:
        sys.exit("no stored runs: run it from the repository's root")
    return folders


def lines(name):
    """The lines of the files of a name."""
    for path in [where + name for where in SETS if os.path.exists(where + name)]:
        with open(path, encoding="ascii", newline="\n") as f:
            yield from f
