#!/usr/bin/env python3
"""Brings the names that this repository declares in specs/ and proofs/ to the spelling of today's Rattle, once, right after port.py.

usage: python3 tools/respell.py [FOLDER]      the folder that holds crates/; this one if none is given

Words are in snake case, types and modules in camel case; a dash joins the names of two functions, and a word hangs on by '_'.
What turns: each name that an .antt file below crates/ declares (a definition, lemma, field or constructor), as a whole word, in the
code of .antt files and in the clauses and `ghost use` items of .rt files. Names of functions of src/, the names that Rattle makes of
the code (goals, steps), strings, inputs and outputs stay. The table of what turned goes to standard output.
"""

import os
import re
import sys

WORD = re.compile(r"[^\s(){}\[\].;,@\"«»]+")
DECLARED = re.compile(r"^(\s*)(?:(?:unfoldable|abbrev|pub|data|record|module) +)*([^\s(){}.;,@\"«»:]+) *(?::|where\b|\(|\{)(.*)")
GOAL = re.compile(r"^ *(tie|goal|given)\.")
# what a dash joins: names of functions, by the first or the last word of each
FUNCTIONS = set("length take drop map append set get_or listed fill cond mul add sub div pow neg lt le eqb all_below min max bits".split())
# names that would fall together with another, or that a plain rule would spell wrongly
BY_HAND = {
    "getD-all": "get_or_all",
    "getD-listed": "get_or-listed",
    "getD-listed-cong": "get_or_listed_cong",
    "getD-within": "get_or_within",
    "new_in": "new_in_lem",
    "pump-H": "pump_head_level",
    "pump-H-rounded": "pump_head_rounded",
}


def files(root, ends):
    for folder, dirs, names in os.walk(os.path.join(root, "crates")):
        dirs[:] = sorted(d for d in dirs if d not in ("out", "must-fail"))
        for n in sorted(names):
            if n.endswith(ends):
                yield os.path.join(folder, n)


def snake(name):
    """The spelling of a name that is no type."""
    if name in BY_HAND:
        return BY_HAND[name]
    words = []
    for part in name.split("-"):
        part = re.sub(r"([a-z0-9])([A-Z])", r"\1_\2", part)
        part = re.sub(r"([A-Z])([A-Z][a-z])", r"\1_\2", part)
        words.append(part if len(part) == 1 and part.isupper() and name == part else part.lower())
    out = words[0]
    for left, right in zip(words, words[1:]):
        out += ("-" if left in FUNCTIONS and right in FUNCTIONS else "_") + right
    return out.replace("′", "'")


def declared(root):
    names = {}
    for path in files(root, ".antt"):
        with open(path, encoding="utf-8") as f:
            lines = f.read().split("\n")
        walk = os.path.basename(path) in ("Proof.antt", "Answers.antt", "Invariants.antt")
        for line in lines:
            m = DECLARED.match(line)
            if not m or line.lstrip().startswith("--"):
                continue
            name = m[2]
            if name[:1].isupper() and "-" not in name or "◌" in name or not re.match(r"[A-Za-z]", name):
                continue
            if name[:1].isupper() and re.match(r"[A-Z][a-z]", name):
                continue
            if walk and (GOAL.match(m[3]) or re.match(r"(invariant|decreases)-", name)):
                continue
            names.setdefault(name, set()).add(path)
    return names


def turn_code(text, table):
    return WORD.sub(lambda m: table.get(m[0], m[0]), text)


def imported(text, own):
    """What a file takes from the libraries: names that stay."""
    names = set()
    for m in re.finditer(r"^(?:pub )?use ([^\s{]+)\.\{([^}]*)\}", text, re.M):
        words = m[1].split(".")
        if words[0] != "Rattle" or words[1] not in own:
            names |= {n.strip().split(" as ")[0] for n in m[2].split(",")}
    return names


def turn_antt(text, table):
    out = []
    for line in text.split("\n"):
        i = line.find("--") if line.lstrip().startswith("--") else line.find(" -- ")
        code, comment = (line, "") if i < 0 else (line[:i], line[i:])
        parts = re.split(r'("(?:[^"\\]|\\.)*")', code)
        code = "".join(p if p.startswith('"') else turn_code(p, table) for p in parts)
        # in a comment only what can be no English word
        comment = WORD.sub(lambda m: table.get(m[0], m[0]) if re.search(r"[a-z][A-Z]|_|-.*-", m[0]) or m[0] in here(text) else m[0], comment)
        out.append(code + comment)
    return "\n".join(out)


def here(text, kept={}):
    if text not in kept:
        kept.clear()
        kept[text] = {m[2] for m in map(DECLARED.match, text.split("\n")) if m and "-" in m[2]}
    return kept[text]


def closing(text, i):
    deep = 0
    for k in range(i, len(text)):
        deep += (text[k] == "{") - (text[k] == "}")
        if not deep:
            return k
    return len(text) - 1


CLAUSE = re.compile(r"(?:requires|ensures)\*?\s*(?:\w+\s*)?\{|ghost\s+(?:\w+\s*)?:?\s*\{|ghost\s+use\b")


def turn_rt(text, table):
    out, i = [], 0
    for m in CLAUSE.finditer(text):
        if m.start() < i:
            continue
        end = text.index(";", m.start()) if "use" in m[0] else closing(text, m.end() - 1)
        out.append(text[i : m.start()])
        out.append(turn_code(text[m.start() : end], table))
        i = end
    out.append(text[i:])
    turned = "".join(out)
    # names in comments: only what can be no name of the code
    camel = {k: v for k, v in table.items() if re.search(r"[a-z][A-Z]", k)}
    return re.sub(r"//[^\n]*", lambda c: WORD.sub(lambda m: camel.get(m[0], m[0]), c[0]), turned)


def spellings(root):
    """Old to new. Where a definition and a figure or a lemma about it would have one name, the second ends in _figure or _lem."""
    names = declared(root)
    table = {n: snake(n) for n in names}
    together = {}
    for n in names:
        together.setdefault(table[n], []).append(n)
    for new, olds in sorted(together.items()):
        dashed = [o for o in olds if "-" in o]
        if len(olds) > 1 and len(dashed) < len(olds):
            for o in dashed:
                table[o] = new + ("_figure" if any("/specs/" in p for p in names[o]) else "_lem")
        if len(set(table[o] for o in olds)) < len(olds):
            print("together:", new, *olds, file=sys.stderr)
    return {old: new for old, new in table.items() if old != new}


def main(root):
    table = spellings(root)
    if "newIn" not in table:
        raise SystemExit("respell: the names are turned already")
    own = set(os.listdir(os.path.join(root, "crates")))
    for path in files(root, (".antt", ".rt")):
        with open(path, encoding="utf-8") as f:
            text = f.read()
        stay = imported(text, own) if path.endswith(".antt") else set()
        here_table = {k: v for k, v in table.items() if k not in stay}
        turned = (turn_antt if path.endswith(".antt") else turn_rt)(text, here_table)
        if turned != text:
            with open(path, "w", encoding="utf-8") as f:
                f.write(turned)
    for old, new in sorted(table.items()):
        print(old, new, sep="\t")


main(sys.argv[1] if len(sys.argv) > 1 else ".")
