"""Brings the definitions and lemmas of the crates to one spelling: words in snake case, a dash or a
capital within a word an underscore. Types and facts keep their capitals.

    python3 tools/rename.py [REPOSITORY]

Run once, right after the port to a newer Rattle. A name that would fall on another gets `_lem`, as
the proof of a law that has its function's name. It prints each name that changed.
"""

import re
import sys
from pathlib import Path

ROOT = Path(sys.argv[1] if len(sys.argv) > 1 else ".").resolve()
TOKEN = re.compile(r"[^\s(){}\[\].,;:\"`|]+")
DECLARED = re.compile(r"^ *(?:(?:pub|abbrev|unfoldable) +)*(record |data |module |ruleset )?([^\s(){}\[\].,;:]+)(?= :(?:\s|$))", re.M)
IMPORT = re.compile(r"use ([\w.'-]+)\.\{([^}]*)\}")
COMMENT = re.compile(r"--.*|//.*")
CAMEL = re.compile(r"\b[a-z][a-z0-9]*(?:[A-Z][a-z0-9]*)+\b")
CODE = re.compile(r"`[^`\n]*`")
# What is made of a function's proof, and not ours: the goals of a proof file, and its steps.
MADE = re.compile(r"(?:abbrev +)?([^\s:]+) : (?:tie\.|\{M : Type 1\} → statement)")


def crates_of(root):
    return {p.name for p in (root / "crates").iterdir()}


def snake(name):
    if not re.match(r"[a-z]", name) or not re.search(r"[A-Z-]", name):
        return name
    if "-" not in name:
        name = re.sub(r"(?<=[a-z0-9])[A-Z]", lambda m: "_" + m[0].lower(), name)
    return name.replace("-", "_")


def declared_in(path, text):
    """Names that a file declares, its goals aside; fields and cases too, but no `let` and no variable."""
    made = {m[1] for m in MADE.finditer(text)} if path.name == "Proof.antt" else set()
    names = set()
    for m in DECLARED.finditer(text):
        line = text[text.rfind("\n", 0, m.start()) + 1 : m.end()]
        if m[2] in made or m[2] in ("let", "in"):
            continue
        names.add(m[2])
    return names, made


def renamings(files):
    declared, made = {}, set()
    for path, text in files.items():
        if path.suffix != ".antt":
            continue
        names, goals = declared_in(path, text)
        made |= goals
        for name in names:
            declared.setdefault(name, set()).add(path)
    taken = {name for name in declared if snake(name) == name}
    chosen = {}
    # Definitions, which have capitals and no dash, choose before laws.
    for name in sorted(declared, key=lambda n: ("-" in n, n)):
        new = snake(name)
        if new == name:
            continue
        stated = any(p.parent.name == "specs" for p in declared[name])
        held = declared.get(new, ())
        if stated and held and new not in chosen and all("proofs" in p.parts for p in held):
            chosen[new] = new + "_lem"
            taken.discard(new)
        while new in taken:
            new += "_lem"
        taken.add(new)
        chosen[name] = new
    return chosen, made, set(declared)


def turn(path, text, chosen, made):
    foreign = set()
    for module, names in IMPORT.findall(text):
        parts = module.split(".")
        if parts[0] != "Rattle" or parts[1] not in CRATES:
            foreign |= {n.strip() for n in names.split(",")}
    goals = declared_in(path, text)[1] if path.name == "Proof.antt" else set()

    def word(m):
        name, start = m[0], m.start()
        if name not in chosen or name in foreign or name in goals:
            return name
        if path.suffix != ".md" and start and m.string[start - 1] == "." and "-" in name and name not in FIELDS:
            return name
        return chosen[name]

    def line(text_line):
        if path.suffix == ".antt":
            code, comment = text_line, ""
            c = re.search(r"(?:^|\s)--(?=\s|$)", text_line)
            if c:
                code, comment = text_line[: c.start()], text_line[c.start() :]
            return TOKEN.sub(word, code) + CODE.sub(lambda q: TOKEN.sub(word, q[0]), comment)
        return text_line

    if path.suffix == ".antt":
        return "\n".join(map(line, text.split("\n")))
    if path.suffix == ".md":
        return CODE.sub(lambda q: TOKEN.sub(word, q[0]), text)
    # Code and edits: names with a capital stand in clauses and comments alone, a dash only in a clause of a line.
    camel = {n: chosen[n] for n in chosen if "-" not in n}
    text = CAMEL.sub(lambda m: camel.get(m[0], m[0]), text)
    if path.suffix == ".edit":
        lines = text.split("\n")
        if lines and ".antt" in lines[0]:
            lines = [lines[0]] + [TOKEN.sub(word, x) for x in lines[1:]]
        return "\n".join(lines)
    return text


FIELDS = set()
CRATES = crates_of(ROOT)


def main():
    paths = [p for p in sorted((ROOT / "crates").rglob("*")) if p.suffix in (".antt", ".rt", ".edit") and "out" not in p.relative_to(ROOT).parts]
    paths += sorted((ROOT / "docs").rglob("*.md")) + sorted(ROOT.glob("*.md"))
    files = {p: p.read_text() for p in paths}
    for path, text in files.items():
        if path.suffix == ".antt":
            for block in re.finditer(r"record [^\n]* where\n((?:  [^\n]*\n|\n)+)", text):
                FIELDS.update(m[2] for m in DECLARED.finditer(block[1]))
    chosen, made, declared = renamings(files)
    # What the port itself renamed, for the pages and the edits, which it does not turn.
    ported = {}
    for path, text in files.items():
        if path.suffix in (".md", ".edit"):
            for name in set(TOKEN.findall(text)) | set(CAMEL.findall(text)):
                if name not in declared and snake(name) != name and snake(name) in declared and snake(name) not in chosen:
                    ported[name] = snake(name)
    for path, text in files.items():
        # There a name in snake case is a function's.
        known = chosen if path.suffix in (".antt", ".rt") else ported | {n: chosen[n] for n in chosen if snake(n) != n}
        new = turn(path, text, known, made)
        if new == text:
            continue
        if path.suffix == ".antt":
            before = set(TOKEN.findall(text))
            for old in before & set(chosen):
                if chosen[old] in before:
                    print(f"look: {path.relative_to(ROOT)}: {old} becomes {chosen[old]}, which stands there", file=sys.stderr)
        path.write_text(new)
    for old in sorted(chosen):
        print(old, chosen[old])


if __name__ == "__main__":
    main()
