#!/usr/bin/env python3
"""weaker.py [LABEL ..]: demand 3 and the laws beside it, said more weakly, are refused by `border_cases`.

A claim that is said more weakly is true as well, so the crate that states it proves it, and a must-fail edit of that
crate shows nothing. Each file of weaker/ is such an edit of `recurrence`, with what its proofs need for it. Tried in
a copy: `recurrence` must still be proved, and `border_cases`, which uses each claim where it ends, must not be; its
first error must stand in the file that the edit names after 'refused by:', and have no word of one that shows nothing
or can't be read. With labels it tries those and prints each first error. Run after `rt check` or `rt ci` from
anywhere.
"""
import concurrent.futures
import pathlib
import re
import subprocess
import sys
import tempfile

sys.dont_write_bytecode = True  # no folder of compiled Python beside the scripts
from applies import WEAKER, copied  # noqa: E402
from edits import faults, first_error  # noqa: E402

CLAIMS, USES = "recurrence", "border_cases"


def checked(crate, copy):
    """Whether a crate is proved, and the first error where it is not."""
    run = subprocess.run(["rt", "check"], cwd=copy / "crates" / crate, stdout=subprocess.PIPE, stderr=subprocess.STDOUT, text=True)
    return run.returncode == 0, first_error(run.stdout).replace(str(copy) + "/", "").replace("./proofs/", "crates/%s/proofs/" % crate)


def tried(edit):
    """Whether an edit is refused as it should be, and the words for it."""
    says = re.match(r"# .*\n# refused by: (\S+)\n", edit.read_text())
    if not says:
        return False, "its first lines do not say the slip and what refuses it"
    with tempfile.TemporaryDirectory() as folder:
        copy = pathlib.Path(folder)
        why = copied(edit, copy)
        if why:
            return False, why
        proved, error = checked(CLAIMS, copy)
        if not proved:
            return False, "%s is not proved with it: %s" % (CLAIMS, error)
        proved, error = checked(USES, copy)
        if proved:
            return False, "nothing refuses it"
        if "crates/%s/proofs/%s:" % (USES, says[1]) not in error:
            return False, "refused elsewhere than in %s: %s" % (says[1], error)
        return not any(faults(error)), "; ".join([*faults(error), error])


def main():
    edits = sorted(WEAKER.glob("*.edit"))
    unknown = set(sys.argv[1:]) - {e.stem for e in edits}
    if unknown:
        print("weaker.py: no such edit: %s" % " ".join(sorted(unknown)))
        return 2
    edits = [e for e in edits if len(sys.argv) == 1 or e.stem in sys.argv[1:]]
    with concurrent.futures.ThreadPoolExecutor(2) as pool:
        results = list(pool.map(tried, edits))
    for edit, (refused, words) in zip(edits, results):
        if not refused or len(sys.argv) > 1:
            print("%s: %s" % (edit.stem, words))
    if not edits or not all(refused for refused, _ in results):
        return 1
    print("claims said more weakly: %d; each is proved in %s, and refused by %s" % (len(edits), CLAIMS, USES))
    return 0


sys.exit(main())
