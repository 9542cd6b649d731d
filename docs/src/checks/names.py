#!/usr/bin/env python3
"""names.py: what is declared and named nowhere, and what a document cites and nothing declares.

Reads crates/ as text, from the top of the repository. It fails where
- a definition, law or function is named by no other declaration (named-once.txt beside this file lists those that
  a reader or a program outside the crates names, with the reason),
- a name is imported and not used, or a function is `pub` and called in its own file alone,
- README.md, CONTRIBUTING.md or a page of docs/ cites, in backticks, a name that stands nowhere.
A field or a constructor goes with the record or type that declares it.
"""
import collections
import pathlib
import re
import sys

TOP = pathlib.Path(__file__).resolve().parents[3]
CRATES = TOP / "crates"
ANSWERS = ("Answers.antt", "Invariants.antt")  # Rattle looks these names up
TOKEN = re.compile(r"[^\s(){}\[\];,«»⌜⌝:.]+")
SIGNATURE = re.compile(r"(?:pub )?(?:unfoldable |abbrev )?(?:pub )?(?:(record|data) )?([^\s:(){}]+)(?=[\s:]).*")
IMPORT = re.compile(r"^\s*(?:pub |ghost )?use ([^\s{;]+?)(?:\.\{([^}]*)\})?(?: as (\w+))?;?\s*$")
FUNCTION = re.compile(r"^\s*(pub )?(?:extern \"C\" )?fn (\w+)")


def module_file(path):
    """The file of one of our modules, as Rattle.job.specs.Format names it."""
    m = re.match(r"Rattle\.(\w+)\.(specs|proofs)\.(.+)$", path)
    return CRATES / m[1] / m[2] / (m[3].replace(".", "/") + ".antt") if m and (CRATES / m[1]).is_dir() else None


class Antt:
    """A file of definitions or laws: its imports, and its declarations with the text of each."""

    def __init__(self, path):
        self.path, self.imports, self.aliases = path, [], {}
        self.blocks = [(None, [])]  # first the heads of sections, which belong to no declaration
        levels, header = [0], False
        text = self.blocks[0][1]
        for line in path.read_text().split("\n"):
            line = re.sub(r"(^|\s)--(\s.*|$)", "", line)
            if not line.strip():
                continue
            indent = len(line) - len(line.lstrip())
            if header:
                self.blocks[0][1].append(line)
                header = not line.rstrip().endswith("where")
                continue
            if re.match(r"\s*(?:pub )?use ", line):
                self.take_import(line)
                continue
            if re.match(r"\s*(?:pub )?mod ", line):
                continue
            while len(levels) > 1 and indent < levels[-1]:
                levels.pop()
            if line.lstrip().startswith("module _"):
                levels.append(indent + 2)
                self.blocks[0][1].append(line)
                header = not line.rstrip().endswith("where")
                continue
            found = self.declared(line) if indent == levels[-1] else None
            if found:
                text = []
                self.blocks.append((found, text))
            text.append(line)

    def take_import(self, line):
        m = IMPORT.match(line)
        if not m:
            return
        if m[3]:
            self.aliases[m[3]] = m[1]
        for item in (m[2] or "").split(","):
            source, _, shown = item.strip().partition(" as ")
            if source and not source.startswith("syntax"):
                self.imports.append((m[1], source, shown or source))

    @staticmethod
    def declared(line):
        rules = re.match(r"\s*(?:pub )?ruleset (\S+) =", line)
        if rules:
            return rules[1]
        m = SIGNATURE.match(line.lstrip())
        if not m or m[2] in ("unfolding", "infixl", "infixr", "infix", "syntax"):
            return None
        depth, seen = 0, False
        for c in line:
            depth += (c in "({") - (c in ")}")
            seen = seen or (c == ":" and depth == 0)
            if c == "=" and depth == 0 and not seen:
                return None
        return m[2] if seen or m[1] else None

    def tokens(self, skip=None):
        out = collections.Counter()
        for name, text in self.blocks:
            if name != skip:
                for line in text:
                    out.update(TOKEN.findall(line))
        return out


def operator(name):
    return name.strip("◌") if name.startswith("◌") and name.endswith("◌") and len(name) > 2 else name


def read_all():
    antt, code = {}, {}
    for f in sorted(CRATES.rglob("*")):
        if "out" in f.relative_to(CRATES).parts[:2]:
            continue
        if f.suffix == ".antt":
            antt[f] = Antt(f)
        elif f.suffix == ".rt":
            code[f] = f.read_text()
    return antt, code


def ghost_imports(text):
    """(module, name, name as it is used) for each name that a file of code takes into its clauses."""
    for line in text.split("\n"):
        m = IMPORT.match(line)
        if m and "ghost use" in line:
            for item in (m[2] or "").split(","):
                source, _, shown = item.strip().partition(" as ")
                if source:
                    yield m[1], source, shown or source


def code_body(text):
    keep = [re.sub(r"//.*", "", x) for x in text.split("\n") if not re.match(r"\s*(ghost use|pub use|use|//)", x)]
    return "\n".join(keep)


def unused_declarations(antt, code):
    used = collections.defaultdict(set)  # file -> names that other files take from it and use
    for f, a in antt.items():
        tokens = a.tokens()
        for module, name, shown in a.imports:
            if operator(shown) in tokens and module_file(module):
                used[module_file(module)].add(name)
        for alias, module in a.aliases.items():
            target = module_file(module)
            if target:
                used[target].update(re.findall(re.escape(alias) + r"\.([^\s(){};,]+)", f.read_text()))
    for f, text in code.items():
        tokens = set(TOKEN.findall(code_body(text)))
        for module, name, shown in ghost_imports(text):
            if operator(shown) in tokens and module_file(module):
                used[module_file(module)].add(name)
        # lemmas and definitions that a tactic(auto, using(..), unfolding(..)) names by their paths
        for crate, part, path, name in re.findall(r"(\w+)::(specs|proofs)::((?:\w+::)+)(\w+)", text):
            crate = f.relative_to(CRATES).parts[0] if crate == "crate" else crate
            used[CRATES / crate / part / (path[:-2].replace("::", "/") + ".antt")].add(name)
        for m in re.finditer(r"ghost use (\S+) as (\w+);", text):
            if module_file(m[1]):
                used[module_file(m[1])].update(re.findall(m[2] + r"\.(\w+)", text))
    for f, a in antt.items():
        for name in dict.fromkeys(n for n, _ in a.blocks if n):
            own = f.name in ANSWERS or f.name == "Proof.antt" and name.endswith("_spec")
            if not own and name not in used[f] and operator(name) not in a.tokens(skip=name):
                yield "%s: %s is named nowhere" % (f.relative_to(CRATES), name)


def unused_imports(antt, code):
    for f, a in antt.items():
        tokens = set(a.tokens())
        body = "\n".join(line for _, text in a.blocks for line in text)
        for module, name, shown in a.imports:
            shut = operator(shown)
            if shut not in tokens and not any(part in body for part in shut.split("◌") if part) and "pub use" not in body:
                if not re.search(r"^pub use .*\b%s\b" % re.escape(name), f.read_text(), re.M):
                    yield "%s: %s of %s is imported and not used" % (f.relative_to(CRATES), name, module)
    for f, text in code.items():
        tokens = set(TOKEN.findall(code_body(text)))
        for module, name, shown in ghost_imports(text):
            if operator(shown) not in tokens and operator(shown) not in code_body(text):
                yield "%s: %s of %s is imported and not used" % (f.relative_to(CRATES), name, module)


def calls_elsewhere(f, name, code):
    """Whether another file calls a function: by its module's name, by a method, or by a `use` of it."""
    stem = f.relative_to(CRATES).parts[0] if f.name in ("lib.rt", "main.rt") else f.stem
    by_path = re.compile(r"\b(?:%s|super|Self|[A-Z]\w*)::%s\b|\.%s\(" % (stem, name, name))
    return any(by_path.search(code_body(t)) or re.search(r"^\s*(?:pub )?use [\w:]*\b(?:%s|super)::(?:%s|\{[^}]*\b%s\b[^}]*\});" % (stem, name, name), t, re.M)
               for g, t in code.items() if g != f)


def functions(code):
    for f, text in code.items():
        body = code_body(text)
        lines = text.split("\n")
        for i, line in enumerate(lines):
            m = FUNCTION.match(line)
            if not m or m[2] == "main" or "extern" in line:
                continue
            here = len(re.findall(r"\b%s\b" % m[2], body)) > len(re.findall(r"\bfn %s\b" % m[2], body))
            there = calls_elsewhere(f, m[2], code)
            if not here and not there:
                yield "%s: %s is named nowhere" % (f.relative_to(CRATES), m[2])
            elif m[1] and not there:
                yield "%s: %s is pub and called in its own file alone" % (f.relative_to(CRATES), m[2])


def cited(antt, code):
    known = set()
    for f in TOP.rglob("*"):
        if {"target", "out", ".git"} & set(f.relative_to(TOP).parts):
            continue
        known.update(f.relative_to(TOP).parts)
        known.add(f.stem)
        if f.suffix in (".rt", ".antt", ".rs", ".sh", ".py", ".h", ".c", ".edit", ".txt", ".toml") or f == TOP / ".ci/run":
            known.update(re.findall(r"[^\s(){}\[\];,.«»⌜⌝@:&*\"'`]+", f.read_text(errors="replace")))
    known |= {"-".join(k.split("-")[:n]) for k in known if "-" in k for n in range(1, k.count("-") + 1)}
    for d in ("README.md", "CONTRIBUTING.md", "docs/MANUAL.md", "docs/GLOSSARY.md", "docs/PROMISES.md", "docs/DECISIONS.md"):
        for number, line in enumerate((TOP / d).read_text().split("\n"), 1):
            for quoted in re.findall(r"`([^`]+)`", line):
                for name in re.findall(r"[A-Za-z_][\w\-]*", quoted):
                    name = name.rstrip("-")
                    if len(name) > 3 and name not in known:
                        yield "%s:%d: cites %s, which stands nowhere" % (d, number, name)


def main():
    antt, code = read_all()
    found = [*unused_declarations(antt, code), *unused_imports(antt, code), *functions(code), *cited(antt, code)]
    allowed = {}
    for line in (pathlib.Path(__file__).parent / "named-once.txt").read_text().split("\n"):
        if line.strip() and not line.startswith("#"):
            place, _, reason = line.partition(" - ")
            allowed[place.strip()] = reason
    bad = []
    for line in found:
        place = re.sub(r": (\S+) .*", r" \1", line)
        if allowed.pop(place, None) is None:
            bad.append(line)
    bad += ["named-once.txt: %s is named elsewhere, or is gone" % place for place in allowed]
    print("\n".join(bad) if bad else "every declaration is named, every import used, every cited name declared")
    return 1 if bad else 0


sys.exit(main())
