"""Checks docs/TRACE.md: what it names is there, definitions are reached, every edit is named; and
that no proof above the directory's layer unfolds a definition of it, but the bench theorem; and that
no line of a proof is too long to read.

    python3 docs/trace.py

Prints one line, or a line for each fault on stderr, and then exits with 1.
"""

import re
import sys
from dataclasses import dataclass, field
from pathlib import Path

ROOT = Path(__file__).resolve().parent.parent
CRATES = ROOT / "crates"
# The directory's layer, and the one file above it that computes with its definitions.
LAYER, BENCH = ("ways", "directory"), CRATES / "access/proofs/Bench.antt"
LONGEST = 400
COLUMNS = ("definition", "calls", "law", "test", "edit")
# The form of a reference, by column; a definition may also be a type or a function of the code.
LOGIC, CODE = r"\w+/[A-Z]\w*\.[\w-]+", r"\w+(::\w+)+"
SHAPES = dict(zip(COLUMNS, (f"{LOGIC}|{CODE}", CODE, LOGIC, r"\w+/[\w/.*-]+", r"\w+/\w+")))

USE = re.compile(r"(?:ghost |pub )?use Rattle\.(\w+)\.(specs|proofs)\.([\w.-]+)\.\{(.*)\};?$")
DECLARED = re.compile(r" *(abbrev |unfoldable |)(pub |)(?:(record|data) (\S+)|(\S+) :(?: |$))")
FUNCTION = re.compile(r' *(pub |)(?:extern "C" )?fn (\w+)')
# A clause of a contract, which may have a name; and what opens a definition outside a line `unfolding`.
CLAUSE = re.compile(r" *(?:requires|ensures)\*? ?(?:\w+ )?\{")
OPENED = re.compile(r"\bunfold\s+(\S+)|\bunfolding\(([^)]*)\)")
TYPE = re.compile(r"(?:pub )?(?:struct|enum) (\w+)")


@dataclass
class Node:
    """A definition, law, type or function: the words that it uses, by the names of its file."""

    names: dict[str, str]
    public: bool = True
    function: bool = False
    words: list[str] = field(default_factory=list)


def words_of(text: str) -> list[str]:
    """Without projections, and without the fields and variables that get a value or a type."""
    words = [word.split(".")[0] for word in re.split(r"[\s(){};,]+", text)]
    followed = zip(words, words[1:] + [""])
    return [word for word, after in followed if word and after not in ("=", ":")]


def names_used(lines: list[str]) -> dict[str, str]:
    """What the names of the `use` lines stand for; the case of an enum stands for the enum."""
    names = {}
    for crate, kind, path, used in (use.groups() for use in map(USE.match, lines) if use):
        declared = path.removesuffix(".TheVariants").split(".")
        for name, _, alias in (one.partition(" as ") for one in used.split(", ")):
            logic = f"{kind}:{crate}/{path}.{name}"
            names[alias or name] = f"{crate}::{declared[-1]}" if declared[0] == "declared" else logic
    return names


def read_logic(path: Path, nodes: dict[str, Node]) -> None:
    """Definitions, and laws: of a law the statement and the modules around it, not the proof."""
    lines = path.read_text().splitlines()
    names, prefix = names_used(lines), f"{path.parent.name}:{path.parts[-3]}/{path.stem}."
    modules, node, is_law = [], None, False
    for line in lines:
        indent = len(line) - len(line.lstrip())
        if not line.strip() or line.startswith(("--", "use ", "pub use "), indent):
            continue
        modules = [module for module in modules if module[0] < indent]
        if line.startswith("module ", indent):
            modules.append((indent, words_of(line)))
            continue
        found = DECLARED.match(line)
        if found and indent == 2 * len(modules):
            name, is_law = found[4] or found[5], not (found[1] or found[3])
            names[name] = prefix + name
            around = [word for _, words in modules for word in words]
            node = nodes[prefix + name] = Node(names, bool(found[2]), words=around)
        elif is_law and indent == 2 * len(modules):
            node = None
        if node:
            node.words += words_of(line)


def read_code(path: Path, nodes: dict[str, Node]) -> None:
    """Types, and functions with the words of their contracts."""
    lines = path.read_text().splitlines()
    names, prefix, owner, node = names_used(lines), f"{path.parts[-3]}::", "", None
    for line in lines:
        if line.startswith(("impl", "}")):
            owner = re.match(r"impl(?:<[^>]*>)? (\w+)", line)[1] + "::" if line.startswith("impl") else ""
        elif found := TYPE.match(line):
            nodes[prefix + found[1]] = Node(names)
        elif found := FUNCTION.match(line):
            node = nodes[prefix + owner + found[2]] = Node(names, bool(found[1]), True)
        elif node:
            node.words += words_of(CLAUSE.sub("", line))
        if line.endswith("{"):
            node = None


def reach(starts: list[str], nodes: dict[str, Node]) -> set[str]:
    """All that the starts cite, directly or through what they cite."""
    seen, todo = set(), list(starts)
    while todo:
        node = nodes.get(todo.pop())
        cited = {node.names[word] for word in node.words if word in node.names} if node else set()
        todo += cited - seen
        seen |= cited
    return seen


def is_test(reference: str) -> bool:
    program, name = reference.split("/", 1)
    if program in ("replay", "event_files", "table_files"):
        return any((CRATES / program / "data").glob(name + ".txt"))
    if program == "directory_tables":
        return name in re.findall(r"^\w+", (CRATES / program / "stdout").read_text(), re.M)
    place = {"unit486": CRATES, "oracle": ROOT, "host": ROOT}.get(program)
    return bool(place) and (place / reference).exists()


def resolve(column: str, reference: str, nodes: dict[str, Node]) -> tuple[str, str]:
    """What a reference stands for, and what is wrong with it."""
    if not re.fullmatch(SHAPES[column], reference):
        return reference, f"not the shape of a reference under {column}"
    if column == "test":
        return reference, "" if is_test(reference) else "no such test"
    if column == "edit":
        path = CRATES / (reference.replace("/", "/must-fail/") + ".edit")
        return reference, "" if path.exists() else "no such edit"
    is_code = "::" in reference
    key = reference if is_code else ("proofs:" if column == "law" else "specs:") + reference
    node = nodes.get(key)
    # A form may be a function that is not public.
    good = node and (node.public or is_code and column == "definition")
    return key, "" if good and (column != "calls" or node.function) else f"no such {column}"


def row_faults(named: dict[str, list[str]], cited: set[str], nodes: dict[str, Node]) -> list[str]:
    """A definition is reached from the row's calls; one that no contract cites, from its laws."""
    forms = [key for key in named["definition"] if nodes[key].function]
    calls, definitions = named["calls"] + forms, set(named["definition"]) - set(forms)
    from_calls, from_laws = reach(calls, nodes), reach(named["law"], nodes)
    faults = []
    for key in sorted(definitions):
        if key not in (from_calls if calls and key in cited else from_laws):
            faults.append(f"{key} is not reached")
    for key in calls + named["law"]:
        if definitions and not definitions & reach([key], nodes):
            faults.append(f"{key} reaches no definition of the row")
    return faults


def read_crates() -> dict[str, Node]:
    nodes: dict[str, Node] = {}
    for path in CRATES.glob("*/*/*"):
        if path.suffix == ".antt" and path.parent.name in ("specs", "proofs"):
            read_logic(path, nodes)
        elif path.suffix == ".rt" and path.parent.name == "src":
            read_code(path, nodes)
    return nodes


def table_faults(nodes: dict[str, Node]) -> tuple[list[str], str]:
    """What is wrong with the rows, and how much there is."""
    faults, rows, references, edits = [], 0, 0, set()
    cited = reach([key for key, node in nodes.items() if node.function and node.public], nodes)
    for number, line in enumerate((ROOT / "docs/TRACE.md").read_text().splitlines(), start=1):
        if line[:1] != "|" or line.startswith(("| document 0", "| demand |", "|---")):
            continue
        cells = dict(zip(COLUMNS, (re.findall("`(.*?)`", cell) for cell in line.split("|")[2:])))
        found = {column: [resolve(column, name, nodes) for name in cells[column]] for column in cells}
        named = {column: [key for key, _ in found[column]] for column in found}
        wrong = [f"{key}: {fault}" for pairs in found.values() for key, fault in pairs if fault]
        wrong += ["not six cells"] if line.count("|") != len(COLUMNS) + 2 else []
        wrong = wrong or row_faults(named, cited, nodes)
        faults += [f"docs/TRACE.md:{number}: {fault}" for fault in wrong]
        rows, references = rows + 1, references + sum(map(len, cells.values()))
        edits |= set(cells["edit"])
    there = {f"{path.parts[-3]}/{path.stem}" for path in CRATES.glob("*/must-fail/*.edit")}
    faults += [f"docs/TRACE.md: {edit} is named in no row" for edit in sorted(there - edits)]
    return faults, f"{rows} rows, {references} references"


def layer_faults() -> list[str]:
    """Where a file above the directory's layer unfolds a definition of it."""
    closed = tuple(f"specs:{crate}/" for crate in LAYER)
    faults = []
    places = ("*/specs/**/*.antt", "*/proofs/**/*.antt", "*/src/*.rt")
    for path in sorted(path for place in places for path in CRATES.glob(place)):
        place = path.relative_to(ROOT)
        if place.parts[1] in LAYER or path == BENCH:
            continue
        lines = path.read_text().splitlines()
        names = names_used(lines)
        for number, line in enumerate(lines, start=1):
            words = line.split() if line.lstrip().startswith("unfolding ") else []
            words += re.split(r"[\s,]+", " ".join(map(" ".join, OPENED.findall(line))))
            opened = [names[word] for word in words if names.get(word, "").startswith(closed)]
            opened += [word for word in words if word.startswith(tuple(f"{crate}::specs" for crate in LAYER))]
            faults += [f"{place}:{number}: unfolds {name}" for name in opened]
    return faults


def line_faults() -> list[str]:
    """Lines of proofs that are too long to read."""
    return [
        f"{path.relative_to(ROOT)}:{number}: more than {LONGEST} characters"
        for path in sorted(CRATES.glob("*/proofs/**/*.antt"))
        for number, line in enumerate(path.read_text().splitlines(), 1)
        if len(line) > LONGEST
    ]


def main(words: list[str]) -> int:
    if words:
        print("usage: trace.py", file=sys.stderr)
        return 2
    faults, size = table_faults(read_crates())
    faults += layer_faults() + line_faults()
    for fault in faults:
        print(fault, file=sys.stderr)
    if not faults:
        print(f"TRACE.md: {size}, all there")
    return 1 if faults else 0


if __name__ == "__main__":
    sys.exit(main(sys.argv[1:]))
