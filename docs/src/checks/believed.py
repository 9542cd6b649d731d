#!/usr/bin/env python3
"""believed.py: what a reader must believe, by name: files of definitions, each with its lines that are neither comment,
blank nor import, and the enums and structs of the code that these speak of, with theirs.

It fails where such a file rests on a proof, or on a file or a type that is not on this list (figures and inner
definitions cannot slip in so). Every path into a crate counts, in an import and in the text; one that names no file or
type, but a folder or a whole crate, is refused, since names could be reached through it.
"""
import pathlib
import re
import sys

CRATES = pathlib.Path(__file__).resolve().parents[3] / "crates"
FILES = {
    "loops": "Loops",
    "fields": "Bytes Real",
    "whole_root": "WholeRoot Table",
    "root": "Nearest Fractions Root Answer",
    "wave": "Wave Nodes OpenAir",
    "job": "Job Format Questions Refusals",
    "chain": "Chain",
    "setting": "Setting Laws",
    "valve_setting": "Answers",
    "reader": "Answer",
    "recurrence": "State Step Scan Run Calls Slices Paths Demand Lent Continued",
    "surge": "Answers",
    "listing_text": "Text Listing",
    "surgelist": "ListingOf",
    "table_afresh": "TableText",
    "c_interface": "Packed",  # by a caller from C
}
# Types of the code, as the definitions name them: in a module of the crate, or in its lib.rt.
TYPES = {
    "wave": "Sums HeadFlow Node",
    "job": "questions.Question",
    "reader": "Held",
    "surge": "answer.Halt",
}
TOOLCHAIN = ("Prim", "mathlib", "lib", "denote")  # libraries that are assumed with the prover, as std's specs are
BELIEVED = {(crate, name) for crate, names in FILES.items() for name in names.split()}
DECLARED = {(crate, name) for crate, names in TYPES.items() for name in names.split()}
IMPORT = re.compile(r"\s*(?:pub )?use ([^\s.]+)(?:\.(\w+))?")
STD = ("Rattle.std.specs.", "Rattle.std.proofs.Math.")  # the second passes on lists and options of the logic


def rests_on(path):
    """What a path into a crate leads to, of BELIEVED or DECLARED; or nothing."""
    _, crate, *parts = path.rstrip(".").split(".")
    if parts[:1] != ["specs"]:
        return None
    starts = [".".join(parts[1:n]) for n in range(len(parts), 1, -1)]  # the longest first
    if parts[1:2] == ["declared"]:
        return next(((crate, s[9:]) for s in starts if (crate, s[9:]) in DECLARED), None)
    file = next((s for s in starts if (CRATES / crate / "specs" / (s.replace(".", "/") + ".antt")).is_file()), None)
    return (crate, file) if (crate, file) in BELIEVED else None


def definitions(crate, name):
    """The lines of a believed file, what it rests on, and what is wrong with it."""
    file = "%s/specs/%s.antt" % (crate, name)
    text = [re.sub(r"(^|\s)--(\s.*|$)", "", line) for line in (CRATES / file).read_text().split("\n")]
    used, bad = set(), []
    for line in text:
        root = IMPORT.match(line)
        if re.match(r"\s*(?:pub )?mod ", line) or (root and root[1] not in (*TOOLCHAIN, "Rattle")):
            bad.append("%s: not followed: %s" % (file, line.strip()))
        for path in re.findall(r"Rattle\.[^\s(){}\[\],;]+", line):
            if path.startswith(STD):
                continue
            if (found := rests_on(path)):
                used.add(found)
            else:
                bad.append("%s rests on %s" % (file, path.rstrip(".")))
    return "crates/" + file, sum(1 for line in text if line.strip() and not IMPORT.match(line)), used, bad


def declaration(crate, name):
    """Where a type of the code stands, its lines, and what is wrong with it."""
    *module, short = name.split(".")
    file = "%s/src/%s.rt" % (crate, "/".join(module) or "lib")
    text = re.sub(r"//.*", "", (CRATES / file).read_text())
    block = re.search(r"^pub (enum|struct) %s \{\n.*?^\}$" % short, text, re.M | re.S)
    if not block:
        return file, 0, ["%s: no enum or struct %s" % (file, short)]
    listed = {name.split(".")[-1] for _, name in DECLARED}
    code = "".join(f.read_text() for f in CRATES.glob("*/src/**/*.rt"))
    others = set(re.findall(r"^(?:pub )?(?:enum|struct) (\w+)", code, re.M)) - listed
    bad = ["%s: %s rests on %s" % (file, short, t) for t in re.findall(r"\w+", block[0]) if t in others]
    return "crates/%s, %s %s" % (file, block[1], short), sum(1 for x in block[0].split("\n") if x.strip()), bad


def main():
    total, bad, used = 0, [], set()
    for crate, name in sorted(BELIEVED):
        shown, lines, rests, wrong = definitions(crate, name)
        print("%s: %d" % (shown, lines))
        total, bad, used = total + lines, bad + wrong, used | rests
    for crate, name in sorted(DECLARED):
        shown, lines, wrong = declaration(crate, name)
        print("%s: %d" % (shown, lines))
        total, bad = total + lines, bad + wrong
    bad += ["%s of %s is on the list, and no believed file rests on it" % (n, c) for c, n in sorted(DECLARED - used)]
    print("\n".join(bad) if bad else "%d files of definitions and %d types of the code, %d lines that are neither "
          "comment, blank nor import" % (len(BELIEVED), len(DECLARED), total))
    return 1 if bad else 0


sys.exit(main())
