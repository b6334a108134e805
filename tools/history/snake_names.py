#!/usr/bin/env python3
"""Brings the definitions and lemmas of the crates to one spelling: words in snake case, facts in camel case, no dashes.

usage: python3 tools/history/snake_names.py [--list]      once, at the top of the repository, right after the kit's own scripts

Renamed are the names that specs/ and proofs/ declare (definitions, lemmas, records, their fields, constructors), wherever
they stand as whole words: in specs/, in proofs/, in the clauses and ghost items of src/, and in the edits of must-fail/.
A name of Rattle's own (a goal, a step of a proof), of the source or of the library is left as it is.
"""

import os
import re
import sys

HEAD = re.compile(r"^(\s*)((?:(?:abbrev|unfoldable|pub)\s+)*)(record|data|ruleset)?\s*([^\s(){}\[\]:;,.]+)(\s*:(?:\s|$)|\s|$)(.*)$")
WORDS = {"use", "module", "unfolding", "open", "let", "in", "elim", "mod", "pub", "--", "λ", "where", "abbrev", "unfoldable", "record", "data", "mutual", "ruleset"}
# Names that would fall together: a lemma beside the definition of its name ends in `_lem`.
APART = {
    "all_pass": "all_pass_lem",
    "at-or-above-falls": "part_above_falls",
    "at-or-below-rises": "part_below_rises",
    "best-price": "best_price_lem",
    "changed-at": "changed_at_lem",
    "class-numbered": "class_numbered_lem",
    "either_first": "either_first_lem",
    "handed_out": "handed_out_lem",
    "levels-in": "levels_in_lem",
    "market-of": "slots_market",
    "on-book": "on_book_lem",
    "one-order": "one_order_lem",
}


def files(root, folders, ends):
    for crate in sorted(os.listdir(os.path.join(root, "crates"))):
        for folder in folders:
            for at, dirs, names in os.walk(os.path.join(root, "crates", crate, folder)):
                dirs.sort()
                for name in sorted(names):
                    if name.endswith(ends):
                        yield os.path.join(at, name)


def read(path):
    with open(path, encoding="utf-8") as f:
        return f.read()


def declared(root):
    """The names that specs/ and proofs/ declare, each with whether it is a fact or a type."""
    found = {}
    for path in files(root, ("specs", "proofs"), ".antt"):
        for line in read(path).split("\n"):
            m = HEAD.match(line)
            if not m:
                continue
            _, _, kind, name, colon, rest = m.groups()
            if name in WORDS:
                continue
            if kind is None and not colon.strip() == ":":
                continue
            if rest.startswith(("goal.", "goals.")):
                continue
            found.setdefault(name, (path, line))
    return found


def new_name(name):
    if name in APART:
        return APART[name]
    if "\u25cc" in name:
        return name
    parts = name.replace("\u2032", "'").split("-")
    if parts[0][:1].isupper() and len(parts) > 1 and all(p[:1].islower() for p in parts[1:]):
        return "".join(p[:1].upper() + p[1:] for p in parts)
    if name[:1].isupper():
        return name.replace("\u2032", "'")
    out = []
    for part in parts:
        part = re.sub(r"(?<=[a-z0-9'])([A-Z])", lambda m: "_" + m.group(1).lower(), part)
        out.append(part)
    return "_".join(out)


def renaming(root):
    names = declared(root)
    return {n: new_name(n) for n in names if new_name(n) != n}, names


def turn_line(line, words, table, answers):
    def one(m):
        before = m.string[: m.start()]
        if answers and re.search(r"(?:^|[\s(\[{,;])(?:c|goal|w|l|g)\.$", before):
            return m.group(0)
        return table[m.group(0)]

    return words.sub(one, line)


def main(argv):
    root = "."
    table, names = renaming(root)
    by_new = {}
    for old, new in table.items():
        by_new.setdefault(new, []).append(old)
    bad = False
    for new, olds in sorted(by_new.items()):
        if len(olds) > 1 or (new in names and new not in table):
            print(f"together: {new}: {', '.join(olds)}{' and a name of its own' if new in names else ''}")
            bad = True
    if "--list" in argv:
        for old in sorted(table):
            print(f"{old} {table[old]}")
        return 0
    if bad:
        return 1
    words = re.compile(r"(?<![^\s(){}\[\]:;,.~])(?:" + "|".join(sorted(map(re.escape, table), key=len, reverse=True)) + r")(?![^\s(){}\[\]:;,.])")
    n = 0
    for path in files(root, ("specs", "proofs", "src", "must-fail"), (".antt", ".rt", ".edit")):
        text = read(path)
        answers = path.endswith(("/Answers.antt", "/Choices.antt", "/Invariants.antt"))
        after = "\n".join(turn_line(l, words, table, answers) for l in text.split("\n"))
        if after != text:
            n += 1
            with open(path, "w", encoding="utf-8") as f:
                f.write(after)
    print(f"{len(table)} names in {n} files")
    return 0


if __name__ == "__main__":
    raise SystemExit(main(sys.argv[1:]))
