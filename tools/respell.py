#!/usr/bin/env python3
"""Brings this repository's own words to today's spelling: definitions, fields, laws and local names in snake case (roomIn, room-in: room_in).

usage: tools/respell.py [--check]      at the top of the repository, once, after the kit's port.py

What turns: a word of specs/ or of a file of laws in proofs/ that is declared in this repository, and begins with a small letter, and has a dash or a capital.
It turns everywhere in .antt files, clauses, must-fail edits and pages. What does not: types and modules, names of the kit, functions of src/, text in quotes.
In a proof of one function (Proof.antt) only words that are declared elsewhere turn: the rest is made of names that Rattle makes.
It stops, and writes nothing, where two names of one file would fall together. --check writes nothing.
"""

import collections
import glob
import os
import re
import sys

WORD = re.compile(r'[^\s(){}.;,:@"«»`\[\]|]+')
USE = re.compile(r"^\s*(?:pub )?(?:ghost )?use (\S+?)(?:\.\{([^}]*)\}| as (\S+?))?;?$", re.M)
DECLARED = re.compile(r'^[ ]*(?:(?:pub|abbrev|unfoldable|ruleset)\s+)*([^\s(){}.;,:@"«»]+)(?=(?: \{[^{}\n]*\})*\s*:(?:\s|$))', re.M)
ALIAS = re.compile(r'([^\s(){}.;,:@"«»]+) as ([^\s(){}.;,:@"«»]+)')
BOUND = re.compile(r'λ ([^.]*)\.|\(([^(){}:]+) : |\{([^(){}:]+) : |let ([^\s(){}.;,:@"«»]+)')


# Where a definition and a law would be spelled alike, the law ends in _lem. These laws have a name in snake case already, which a definition takes now.
LAWS = {it: it + "_lem" for it in "in_small no_address opened_with free_of same_class small_at left_behind".split()}
LAWS["left_by"] = "left_by_it"


def snake(word):
    word = word.replace("′", "'")
    word = re.sub(r"(?<=[a-z0-9])([A-Z])", lambda m: "_" + m[1].lower(), word)
    return word.replace("-", "_")


def is_odd(word):
    return bool(re.match(r"[a-z]", word)) and bool(re.search(r"[A-Z]|-|′", word)) and not re.search(r"[^A-Za-z0-9_\-'′₀-₉]", word)


def read(path):
    with open(path, encoding="utf-8") as f:
        return f.read()


def texts():
    for kind in ("specs", "proofs"):
        yield from sorted(glob.glob(f"crates/*/{kind}/**/*.antt", recursive=True))


def is_walk(path):
    return path.endswith("/Proof.antt") and path.count("/") > 3


def bare(text):
    return re.sub(r"(?m)(?<!\S)--.*$", "", text)


def kit_names():
    """Names that some file brings in from the kit's libraries."""
    found = set()
    for path in list(texts()) + sorted(glob.glob("crates/*/src/**/*.rt", recursive=True)):
        own = {os.path.basename(os.path.dirname(it.rstrip("/"))) for it in glob.glob("crates/*/src/")}
        for where, items, _ in USE.findall(read(path)):
            steps = where.split(".")
            if steps[0] == "Rattle" and len(steps) > 1 and steps[1] in own:
                continue
            for it in items.split(","):
                found.add(it.split(" as ")[0].strip())
    return found


def declared():
    found = collections.defaultdict(set)
    for path in texts():
        if is_walk(path):
            continue
        code = bare(read(path))
        for it in DECLARED.findall(code):
            found[it].add(path)
        for groups in BOUND.findall(code):
            for group in groups:
                for it in group.split():
                    found[it].add(path)
        for it in ALIAS.findall(code):
            found[it[1]].add(path)
    return found


def comment_words(line, table):
    """A comment: a word with a capital turns anywhere, one with a dash where it stands as a name: in a header's list or in code marks."""
    def camel(m):
        return table.get(m[0], m[0]) if re.search("[A-Z]", m[0]) else m[0]

    def named(m):
        return table.get(m[0], m[0])

    listed = re.match(r"(\s*-- {2,})(.*?)(\s{2,}.*)?$", line)
    if listed and listed[3]:
        name = WORD.sub(named, listed[2])
        longer = len(name) - len(listed[2])
        gap = len(listed[3]) - len(listed[3].lstrip())
        name += " " * max(2, gap - longer)
        listed = (listed[0], listed[1], listed[2], listed[3].lstrip())
        return listed[1] + name + WORD.sub(camel, re.sub(r"`[^`]*`", lambda m: WORD.sub(named, m[0]), listed[3]))
    line = re.sub(r"`[^`]*`", lambda m: WORD.sub(named, m[0]), line)
    return WORD.sub(camel, line)


def turned_antt(text, table, walk=False):
    lines = []
    for line in text.split("\n"):
        m = re.match(r"(.*?)((?<!\S)--.*)?$", line, re.S)
        # What Rattle makes is named behind a dot, and is spelled as these laws are.
        made = lambda w: walk and w[0] in LAWS and m[1][: w.start()].endswith(".")
        code = WORD.sub(lambda w: w[0] if made(w) else table.get(w[0], w[0]), m[1])
        code = re.sub(r"(?<![^\s{,])([^\s{},]+) as \1(?=[,}])", r"\1", code)
        lines.append(code + (comment_words(m[2], table) if m[2] else ""))
    return "\n".join(lines)


def turned_rt(text, table):
    """Clauses and ghost lines turn, and comments; code has no such word."""
    lines = []
    for line in text.split("\n"):
        m = re.match(r"(\s*)(//.*)$", line)
        if m:
            lines.append(m[1] + WORD.sub(lambda w: table.get(w[0], w[0]) if re.search("[A-Z]", w[0]) else w[0], m[2]))
        else:
            parts = re.split(r'("(?:[^"\\]|\\.)*")', line)
            lines.append("".join(p if k % 2 else WORD.sub(lambda w: table.get(w[0], w[0]), p) for k, p in enumerate(parts)))
    return "\n".join(lines)


def turned_edit(text, table):
    lines = []
    for line in text.split("\n"):
        if line.startswith(("old:", "new:")):
            parts = re.split(r'("(?:[^"\\]|\\.)*")', line)
            line = "".join(p if k % 2 else WORD.sub(lambda w: table.get(w[0], w[0]), p) for k, p in enumerate(parts))
        lines.append(line)
    return "\n".join(lines)


def turned_page(text, table):
    def span(m):
        return WORD.sub(lambda w: table.get(w[0], w[0]), m[0])

    parts = re.split(r"(^```.*?^```$)", text, flags=re.M | re.S)
    return "".join(p if k % 2 else re.sub(r"`[^`\n]+`", span, p) for k, p in enumerate(parts))


def clashes(table):
    """Names of one file that would be spelled alike, though they were not. Names of modules and crates are another matter."""
    bad = []
    for path in texts():
        code = bare(read(path))
        if is_walk(path):
            continue
        words = set(WORD.findall(re.sub(r"\\buse [^{;\\n]*", "", code)))
        by = collections.defaultdict(set)
        for it in words:
            by[table.get(it, it)].add(it)
        for new, olds in by.items():
            if len(olds) > 1:
                bad.append((path, new, sorted(olds)))
    return bad


def main():
    check = "--check" in sys.argv
    kit = kit_names()
    own = declared()
    table = {it: snake(it) for it in own if is_odd(it) and it not in kit}
    table.update(LAWS)
    both = sorted(it for it in own if is_odd(it) and it in kit)
    if both:
        print("of the kit and ours:", " ".join(both))
    for _, _, olds in clashes(table):
        if any(re.search("[A-Z]", it) for it in olds) or any("-" not in it for it in olds):
            table.update({it: table[it] + "_lem" for it in olds if "-" in it and not table[it].endswith("_lem")})
    bad = clashes(table)
    for path, new, olds in bad:
        print(f"{path}: {new}: {' '.join(olds)}")
    if bad:
        print(f"{len(bad)} clashes; nothing written")
        return 1
    if check:
        print(len(table), "words")
        return 0
    done = 0
    for pattern, turn in (
        ("crates/*/specs/**/*.antt", turned_antt),
        ("crates/*/proofs/**/*.antt", turned_antt),
        ("crates/*/src/**/*.rt", turned_rt),
        ("crates/*/must-fail/*.edit", turned_edit),
        ("docs/**/*.md", turned_page),
        ("README.md", turned_page),
    ):
        for path in sorted(glob.glob(pattern, recursive=True)):
            text = read(path)
            new = turn(text, table, True) if is_walk(path) else turn(text, table)
            if new != text:
                with open(path, "w", encoding="utf-8") as f:
                    f.write(new)
                done += 1
    print(f"{len(table)} words, {done} files")
    return 0


if __name__ == "__main__":
    raise SystemExit(main())
