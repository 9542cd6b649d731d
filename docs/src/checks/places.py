#!/usr/bin/env python3
"""places.py [COMMIT] [--all]: places of the older forms in the sources, by the points of docs/DESIGN-PASS.md.

It counts in the folder as it stands, or in the sources of COMMIT; with --all it prints each place too. Each count is
a search by words or by signatures: what stands for a reason is counted like the rest.
"""
import pathlib
import re
import subprocess
import sys

TOP = pathlib.Path(__file__).resolve().parents[3]


def sources(commit):
    """The Rattle sources: path and text."""
    if not commit:
        return [(str(p.relative_to(TOP)), p.read_text()) for p in sorted(TOP.glob("crates/*/src/**/*.rt"))]
    names = subprocess.run(["git", "ls-tree", "-r", "--name-only", commit, "crates"], cwd=TOP, stdout=subprocess.PIPE, text=True, check=True)
    return [
        (name, subprocess.run(["git", "show", "%s:%s" % (commit, name)], cwd=TOP, stdout=subprocess.PIPE, text=True, check=True).stdout)
        for name in names.stdout.split("\n")
        if re.fullmatch(r"crates/[^/]+/src/.*\.rt", name)
    ]


FUNCTION = re.compile(r"^( *)((?:pub(?:\(super\))? )?(?:extern \"C\" )?(?:const )?fn (\w+)[^\n]*(?:\n(?!\1\{).*)*)\n\1\{", re.M)


def functions(files):
    """Crate::name and signature with its clauses."""
    for path, text in files:
        for m in FUNCTION.finditer(text):
            yield "%s::%s" % (path.split("/")[1], m[3]), m[2]


def required(signature):
    return " ".join(re.findall(r"requires[^{]*\{((?:[^{}]|\{[^{}]*\})*)\}", signature))


def parameters(signature):
    return re.findall(r"(\w+): ", re.split(r"\n\s*(?:requires|ensures)", signature)[0])


def by_line(files, pattern):
    return ["%s:%d" % (path, i + 1) for path, text in files for i, line in enumerate(text.split("\n")) if re.search(pattern, line)]


# point, what is counted, pattern of a line
LINES = (
    (1, "enums of the repository's own", r"^\s*(?:pub )?enum \w+"),
    (1, "fields that are flags", r"^\s+(?:pub )?\w+: bool,$"),
    (1, "functions that answer a question's number or a number of an answer",
     r"fn (?:first_no|decide|numbers_of)\b|Refused\(usize\)"),
    (1, "a kind of node as a number", r"\bkinds?(?:\([^)]*\))? (?:[<>]=?|[!=]=) \d|\bk == \d|match k\b|fn kind\b.*usize|kind: usize"),
    (1, "a number of an answer as a parameter or tested", r"\bnumber: usize|\bnumber == \d"),
    (3, "while loops", r"^\s*(?:'\w+: )?while "),
    (4, "conversions by a function of one's own", r"fn (?:wide|index|number|pack_answer|numbers_of)\b"),
    (4, "first values by a function of one's own", r"fn (?:none|begun|new)\(\)"),
    (4, "printing of a value by a function of one's own", r"fn show\b"),
    (6, "arrays of 32 numbers", r"0\.0(?:f64)?; 32\]"),
    (7, "function pointers, tables of functions, dyn", r"\bdyn\b|: fn\(|\[fn"),
)
FACTS = (
    "Accepted job", "IsTable roots", "Lent job", "LaidPipe", "first_no pair_questions job.now ≡ 0", "CutToPipe", "Floored",
    "Ready job", r"< node_count nodes", r"< pipe_count pipes", r"< trip_count trips", r"\+ 8 ≤ length",
    r"numbers_finite", r"friction_fits friction", r"initial_fits initial", r"pipe_count \(pipe_table job.now\) \* 4 ≤",
    r"node_count \(node_table job.now\) ≤", r"at \+ [^×]*≤ length out",
)
TOGETHER = (
    ("heads", "flows"), ("heads", "flows", "highest", "lowest"), ("heads", "flows", "highest", "lowest", "speeds", "inflows", "spare"),
    ("speeds", "inflows"), ("friction", "s"), ("friction", "floors"), ("job", "l"), ("nodes", "counts"), ("schedules", "place", "count"),
    ("section", "head", "flow", "highest", "lowest"), ("number", "steps", "section"), ("roots",),
)
BESIDE = (("at", "out"),)


def main():
    words = [w for w in sys.argv[1:] if w != "--all"]
    files = sources(words[0] if words else "")
    every = [*functions(files)]
    rows = [(point, what, by_line(files, pattern)) for point, what, pattern in LINES]
    rows += [(5, "functions that ask: " + fact, [n for n, s in every if re.search(fact, required(s))]) for fact in FACTS]
    rows += [(5, "functions lent together: " + ", ".join(names), [n for n, s in every if set(names) <= set(parameters(s))]) for names in TOGETHER]
    rows += [(6, "functions with a place beside a buffer: " + ", ".join(names), [n for n, s in every if set(names) <= set(parameters(s))]) for names in BESIDE]
    print("%d files, %d functions" % (len(files), len(every)))
    for point, what, places in sorted(rows, key=lambda row: row[0]):
        print("%d | %s | %d" % (point, what, len(places)))
        if "--all" in sys.argv:
            print("    " + " ".join(places))
    return 0


sys.exit(main())
