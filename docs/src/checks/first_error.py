#!/usr/bin/env python3
"""first_error.py CRATE LABEL: the whole first error of a crate with one of its must-fail edits, tried in a copy."""
import pathlib
import subprocess
import sys
import tempfile

sys.dont_write_bytecode = True  # no folder of compiled Python beside the scripts
from applies import TOP, changed, copied_all  # noqa: E402
from edits import faults, first_error  # noqa: E402


def main():
    crate, label = sys.argv[1:]
    folder = TOP / "crates" / crate
    texts, why = changed(folder / "must-fail" / (label + ".edit"), folder)
    if why:
        print("%s/%s: %s" % (crate, label, why))
        return 1
    with tempfile.TemporaryDirectory() as place:
        copy = pathlib.Path(place)
        copied_all(copy)
        for path, text in texts.items():
            (copy / "crates" / crate / path).write_text(text)
        run = subprocess.run(["rt", "check"], cwd=copy / "crates" / crate, stdout=subprocess.PIPE, stderr=subprocess.STDOUT, text=True)
        error = first_error(run.stdout).replace(str(copy) + "/", "")
    words = [*faults(error)] if run.returncode else ["it is still proved"]
    print("%s/%s: %s" % (crate, label, "\n".join([*words, error])))
    return 1 if words else 0


sys.exit(main())
