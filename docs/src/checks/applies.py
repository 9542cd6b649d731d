#!/usr/bin/env python3
"""applies.py: whether each edit still applies: the must-fail edits of the crates, and beside this file the wrong
programs, which wrong_programs.py tries, and the claims said more weakly, which weaker.py tries.

`rt` finds an edit whose text is gone only after the crates are proved; this takes a second. Each 'old:' text must
stand exactly once in the file that the line 'file:' before it names, after the replacements before it are made.
"""
import pathlib
import shutil
import sys

TOP = pathlib.Path(__file__).resolve().parents[3]
WRONG_PROGRAMS = pathlib.Path(__file__).resolve().parent / "wrong-programs"
WEAKER = pathlib.Path(__file__).resolve().parent / "weaker"


def changed(edit, folder):
    """The new texts of the files of a folder that an edit changes, by their paths; and what is wrong with it, if
    anything."""
    texts, path, old = {}, None, None
    for line in edit.read_text().split("\n"):
        if line.startswith("file: "):
            path = line[6:]
            if not (folder / path).is_file():
                return texts, "%s is no file of %s" % (path, folder.name)
            texts.setdefault(path, (folder / path).read_text())
        elif line.startswith("old: "):
            old = line[5:]
        elif line.startswith("new:"):
            times = texts[path].count(old)
            if times != 1:
                return texts, "its text stands %d times: %s" % (times, old)
            texts[path] = texts[path].replace(old, line[4:].removeprefix(" "))
    return texts, None if texts else "it changes nothing"


def copied_all(copy):
    """Makes a copy of the crates, with what is proved of them, and without their must-fail edits."""
    shutil.copytree(TOP / "crates", copy / "crates", ignore=shutil.ignore_patterns("must-fail"))
    shutil.copy(TOP / "crates.txt", copy)


def copied(edit, copy):
    """Makes a copy of the crates, with what is proved of them, in which an edit of the repository is made; answers
    what is wrong with the edit, if anything."""
    texts, why = changed(edit, TOP)
    if why:
        return why
    copied_all(copy)
    for path, text in texts.items():
        (copy / path).write_text(text)
    return None


def main():
    edits = [(e, e.parents[1]) for e in sorted((TOP / "crates").glob("*/must-fail/*.edit"))]
    programs = [(e, TOP) for e in sorted(WRONG_PROGRAMS.glob("*.edit"))]
    claims = [(e, TOP) for e in sorted(WEAKER.glob("*.edit"))]
    every = edits + programs + claims
    bad = ["%s: %s" % (e.relative_to(TOP), why) for e, folder in every if (why := changed(e, folder)[1])]
    counts = "must-fail edits %d, wrong programs %d, weaker claims %d" % (len(edits), len(programs), len(claims))
    print("\n".join(bad) if bad else "they apply: " + counts)
    return 1 if bad else 0


if __name__ == "__main__":
    sys.exit(main())
