#!/usr/bin/env python3
"""wrong_programs.py: each wrong `surgelist` of wrong-programs/ is proved, and pieces.py refuses what it prints.

No contract says that a program reads its input to the end, so the prover takes such a program: only a test can tell it
from ours. This shows that it does. Run after `rt ci` from anywhere: the copies take what it left in the crates' folders.
"""
import pathlib
import subprocess
import sys
import tempfile

sys.dont_write_bytecode = True  # no folder of compiled Python beside the scripts
from applies import WRONG_PROGRAMS, copied  # noqa: E402

PIECES = pathlib.Path(__file__).resolve().parent / "pieces.py"
REFUSED = ": another listing, which ends"  # of pieces.py, so that a failure of its own is none


def tried(edit, copy):
    """What is wrong with the trial of an edit in a copy of the repository, if anything; else what pieces.py said."""
    why = copied(edit, copy)
    if why:
        return why, None
    program = copy / "crates/surgelist/out/surgelist"
    program.unlink(missing_ok=True)
    # The sample job's listing is no matter here: what counts is that the program was proved and built.
    proved = subprocess.run(["rt", "run"], cwd=copy / "crates/surgelist", stdin=subprocess.DEVNULL, capture_output=True, text=True)
    said = proved.stdout + proved.stderr
    if "logic=proved" not in said or not program.is_file():
        return "rt run does not prove and build it:\n" + said[-4000:], None
    test = subprocess.run([sys.executable, PIECES, program], capture_output=True, text=True)
    lines = test.stdout.rstrip("\n").split("\n")
    if test.returncode == 0 or not all(REFUSED in line for line in lines):
        return "pieces.py does not refuse it: " + test.stdout[-2000:] + test.stderr[-2000:], None
    return None, lines


def main():
    edits = sorted(WRONG_PROGRAMS.glob("*.edit"))
    for edit in edits:
        with tempfile.TemporaryDirectory() as folder:
            why, lines = tried(edit, pathlib.Path(folder))
        if why:
            print("%s: %s" % (edit.stem, why))
            return 1
        print("%s is proved, and refused by %d tests; the first: %s" % (edit.stem, len(lines), lines[0]))
    return 0 if edits else 1


sys.exit(main())
