#!/usr/bin/env python3
"""edits.py LOG [CRATE/LABEL..]: what the must-fail edits are refused for.

LOG is what `rt ci` or `rt must-fail` wrote. Of each edit it looks at three things: that it says in its first line,
after '# ', which slip it is; that it has been refused, and not for a name that it took away; and that the first error
of its check has none of the words by which an error is known that shows nothing (a tactic gave up, a name or a goal is
not there: the proof file no longer fits the code). LOG holds no more than the beginning of that error: one-edit.sh
prints it whole. Whether the error is the fact that the slip breaks, words can't tell: read it. With names it looks at
those alone and prints theirs.
"""
import pathlib
import re
import sys

TOP = pathlib.Path(__file__).resolve().parents[3]
FOLLOWS = ("not checked: ", "were not checked", "was not checked")
SHOWS_NOTHING = (
    ("a tactic gave up", r"met a bound of its own|step limit|ran out of steps|gave up|did not finish|no verdict"),
    ("a name is not there", r"is not in scope|has no `[^`]*` that can be named|has no field|no module named|unknown name"),
    ("it only follows from another error", r"not checked: |were not checked|was not checked"),
    ("a goal can't be named", r"Need-[^`]*` that can be named|takes \d+ arguments?, but|is given too many arguments"),
    ("another place than the proof has", r"expected type `tie\.(?:After|Then|Else|At|In|Joined|Start)"),
    ("a rewriting found no place", r"no occurrence of the path's|no part of the goal"),
    ("something is undetermined", r"was not determined|unsolved"),
    ("the file does not parse", r"expected a term|parse error|unexpected"),
)
# Words of an error that can't be read, unless it tells beside them how the two types differ once computed.
NOT_READABLE = (
    ("a bound of steps", r"took more than \d+ steps"),
    ("it is cut off", r"\[cut: |…\[\+\d+ bytes\]\s*$"),
    ("no difference is told", r"bytes of the two \w+ are identical|identical apart from the names"),
)
DIFFERENCE = r"computed as far as they go, the two \w+ (?:are `|(?:first differ|differ only) where one has)"


def first_error(log):
    """The first error of a log that follows from no other, with the lines that belong to it; else the first open
    need."""
    lines = log.split("\n")
    for i, line in enumerate(lines):
        if re.search(r": error: ", line) and not any(words in line for words in FOLLOWS):
            rest = []
            for more in lines[i + 1:]:
                if not more.startswith("  "):
                    break
                rest.append(more)
            return "\n".join([line, *rest])
    for line in lines:
        if "it is not proved that" in line:
            return line
    return ""


OPEN_GOAL = "it is not proved that"  # of a function without a proof file: the goal that is left open is the fact


def shows_nothing(error):
    if not error.strip():
        yield "no error is told"
    for what, words in SHOWS_NOTHING:
        if re.search(words, error) and OPEN_GOAL not in error:
            yield "shows nothing (%s)" % what


def faults(error):
    """What is wrong with a whole first error, as far as words tell."""
    yield from shows_nothing(error)
    for what, words in NOT_READABLE:
        if re.search(words, error) and not re.search(DIFFERENCE, error):
            yield "can't be read (%s)" % what


REFUSED = re.compile(r"^rt: must-fail (\S+)/(\S+)\.edit: refused, as it must be(.*)$", re.M)


def main():
    if len(sys.argv) < 2:
        print(__doc__)
        return 2
    said = {"%s/%s" % (m[1], m[2]): m[3] for m in REFUSED.finditer(pathlib.Path(sys.argv[1]).read_text(errors="replace"))}
    named = sys.argv[2:]
    bad, count = [], 0
    for edit in sorted((TOP / "crates").glob("*/must-fail/*.edit")):
        name = "%s/%s" % (edit.parts[-3], edit.stem)
        if named and name not in named:
            continue
        count += 1
        if not edit.read_text().startswith("# "):
            bad.append("%s: its first line does not say which slip it is" % name)
        if name not in said:
            bad.append("%s: it has not been refused" % name)
            continue
        only, _, error = said[name].partition("): ") if said[name].startswith(" (") else ("", "", said[name].removeprefix(": "))
        if only:
            bad.append("%s: refused%s)" % (name, only[:200]))
        bad += ["%s: %s: %s" % (name, what, error[:300]) for what in shows_nothing(error)]
        if named:
            print("%s: %s" % (name, said[name]))
    says = "says its slip, has been refused, and its first error has no word of one that shows nothing"
    print("\n".join(bad) if bad else "%d must-fail edits: each %s" % (count, says))
    return 1 if bad else 0


if __name__ == "__main__":
    sys.exit(main())
