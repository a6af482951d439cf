#!/usr/bin/env python3
"""Lists the places in src/ that docs/DESIGN-PASS.md counts, by point: places.py [FOLDER [POINT]]. With no point only the counts."""
import glob
import os
import re
import sys

HEAD = re.compile(r"^( *)(?:pub )?(?:extern \"C\" )?fn (\w+)(?:<[^>]*>)?\((.*?)\)(?: -> ([^\n{]*?))?\n?(?= *(?:requires|ensures|\{)|\n)", re.S | re.M)


def functions(text):
    """Name, line, parameters and result of each function."""
    for m in HEAD.finditer(text):
        names = re.findall(r"(\w+): ", re.sub(r"<[^>]*>", "", m.group(3)))
        yield m.group(2), text.count("\n", 0, m.start()) + 1, names, (m.group(4) or "").strip()


def lines(pattern, files):
    for path, text in files:
        for at, line in enumerate(text.split("\n"), 1):
            if re.search(pattern, line) and not line.lstrip().startswith("//"):
                yield f"{path}:{at}: {line.strip()}"


def heads(wanted, files):
    for path, text in files:
        for name, at, names, result in functions(text):
            if wanted(name, names, result):
                yield f"{path}:{at}: {name}({', '.join(names)}) -> {result}"


def main():
    root = sys.argv[1] if len(sys.argv) > 1 else "."
    point = sys.argv[2] if len(sys.argv) > 2 else None
    paths = sorted(glob.glob(os.path.join(root, "crates/*/src/*.rt")))
    files = [(os.path.relpath(p, root), open(p, encoding="utf-8").read()) for p in paths]
    group = lambda *wanted: lambda name, names, result: set(wanted) <= set(names)
    found = {
        "1 enums of one's own": lines(r"^(pub )?enum ", files),
        "1 functions that answer a refusal's number": heads(lambda n, ps, r: r == "u32" and re.search(r"number|refused|or_else|seventeenth|in_place|drop_line|load_table", n), files),
        "1 a number beside a value": lines(r"^ +(pub )?number: u32,", files),
        "1 numbers for kinds": lines(r"\bkind: u32", files),
        "2 two forms of a call": lines(r"\bfn \w+_in_place\b", files),
        "3 loops with a test": lines(r"^ *(while|loop)\b", files),
        "3 loops over places": lines(r"^ *for \w+ in 0\w*\.\.", files),
        "4 conversions with a name": heads(lambda n, ps, r: n in ("bit", "wide", "wide_tag", "low_byte", "top_byte", "word_of", "bytes_of", "flag_if", "hex_of", "lane_bit", "with_digit", "line_of"), files),
        "5 tags with valid marks and LRU numbers": heads(group("tags", "valid", "lru"), files),
        "5 count of ranges with their words": heads(group("range_count", "bounds"), files),
        "5 RAM with parity": heads(group("ram", "parity"), files),
        "5 base, word, held and due": heads(group("base", "word", "held", "due"), files),
        "5 ten parameters or more": heads(lambda n, ps, r: len(ps) >= 10, files),
        "6 a buffer with its length beside it": heads(lambda n, ps, r: bool({"words", "values", "bytes", "line", "script"} & set(ps)) and bool({"to", "count", "at", "place"} & set(ps)), files),
        "7 closures, dyn, function pointers": lines(r"\bdyn\b|\bfn\(|impl Fn|: Fn\w*\(|\|\w+(, \w+)*\|", files),
        "7 switches on a letter": lines(r"match letter", files),
    }
    for title, places in found.items():
        places = list(places)
        if point is None:
            print(f"{title}: {len(places)}")
        elif title.startswith(point):
            print("\n".join([f"{title}: {len(places)}"] + ["  " + p for p in places]))


if __name__ == "__main__":
    main()
