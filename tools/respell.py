#!/usr/bin/env python3
"""Spells the repository's own definitions and lemmas as today's Rattle does: words in snake case, as 'two_extensions'
and 'operand_count'. Run once, behind the kit's port.py.

usage: respell.py [FOLDER]        turns the names of respelled.tsv (old, new, and 'pages' where port.py has turned the
                                  code) in crates/, README.md and docs/
       respell.py --table FOLDER  writes that table anew, from the names that specs/ and proofs/ declare

It also derives Clone and Copy for the plain types, and writes `#![tactic(auto)]` into each root file.

Whole words turn, in antt and in clauses; in comments and pages only those between backticks. A Proof.antt keeps the
names of its goals and steps, which Rattle makes: there nothing turns behind 'tie.', or behind a dot but for the fields
of the repository's own records.
"""

import os
import re
import sys

HERE = os.path.dirname(os.path.realpath(__file__))
TABLE = os.path.join(HERE, "respelled.tsv")
NAME = r"[^\s(){}.;,@\"«»]+"
DECLARED = re.compile(rf"(?m)^( *)((?:abbrev |unfoldable |pub |record |data )*)({NAME})((?: \{{[^{{}}\n]*\}}| \([^()\n]*\))*) :(?= |$)")
SPAN = re.compile(r"`[^`\n]+`")
# Words that are no names, in pages.
WORDS = set()


def spelled(name):
    if name[0].islower() or not name[0].isalpha():
        name = re.sub(r"(?<=[a-z0-9])[A-Z](?=[a-z])", lambda m: "_" + m[0].lower(), name)
    return name.replace("-", "_").replace("′", "'")


def files(root, ends):
    for top in ("crates", "docs", "bench", "blocks", "scripts"):
        for folder, dirs, names in os.walk(os.path.join(root, top)):
            dirs[:] = sorted(d for d in dirs if d != "out")
            for f in sorted(names):
                if f.endswith(ends):
                    yield os.path.join(folder, f)
    if ".md" in ends:
        yield os.path.join(root, "README.md")


def antt_comment(t):
    return re.sub(r"(?m)--.*$", "", t)


def is_walk(path):
    return path.endswith("/Proof.antt")


def table(root):
    own, fields = set(), set()
    for p in files(root, (".antt",)):
        if is_walk(p):
            continue
        t = antt_comment(open(p, encoding="utf-8").read())
        for m in DECLARED.finditer(t):
            own.add(m[3])
            if m[1] and "pub" in m[2]:
                fields.add(m[3])
    rows = {}
    for n in sorted(own):
        if spelled(n) != n and re.match(r"[A-Za-z]", n):
            rows[n] = spelled(n)
    return rows, own, fields


def tokens(t):
    return set(re.findall(NAME, antt_comment(t)))


def turn_code(text, rows, pages, walk, fields, comment, kept=()):
    """The text with each whole word of the rows turned."""
    out = []
    for line in text.split("\n"):
        m = re.search(comment, line)
        code, rest = (line[: m.start()], line[m.start() :]) if m else (line, "")
        parts = re.split(r'("(?:[^"\\]|\\.)*")', code)
        for i in range(0, len(parts), 2):

            def one(m, part=parts[i]):
                w = m[0]
                if w not in rows or w in kept:
                    return w
                behind = part[: m.start()]
                if walk and behind.endswith("."):
                    if re.search(r"(^|[\s(])tie\.$", behind) or w not in fields:
                        # behind a module of the repository's own a name is the repository's
                        if not re.search(r"(?:^|[\s(])[A-Z]\w*\.$", behind):
                            return w
                return rows[w]

            parts[i] = re.sub(NAME, one, parts[i])
        out.append("".join(parts) + turn_prose(rest, pages))
    return "\n".join(out)


def turn_prose(text, rows):
    def span(m):
        return re.sub(r"[^\s(){}.;,@\"«»`/:]+", lambda w: rows.get(w[0], w[0]) if w[0] not in WORDS else w[0], m[0])

    return SPAN.sub(span, text)


def turn(root, rows, pages, fields):
    for p in files(root, (".antt", ".rt", ".md")):
        old = open(p, encoding="utf-8").read()
        if p.endswith(".md"):
            new = turn_prose(old, pages)
        elif p.endswith(".rt"):
            new = turn_code(old, rows, pages, False, fields, r"(?<!:)//.*$")
        else:
            walk = is_walk(p)
            kept = {m[1] for m in re.finditer(rf"(?m)^(?:abbrev |pub )*({NAME}) : tie\.", old)} if walk else ()
            new = turn_code(old, rows, pages, walk, fields, r"(?<![^\s(){}.;,@\"«»])--.*$", kept)
        if new != old:
            open(p, "w", encoding="utf-8").write(new)


def modern(root):
    """Plain types are copied, as they always were, and each crate asks for the tactics."""
    for p in files(root, (".rt",)):
        old = open(p, encoding="utf-8").read()
        new = old.replace("#[derive(Drop)]", "#[derive(Clone, Copy)]")
        if os.path.basename(p) in ("lib.rt", "main.rt") and "#![tactic(auto)]" not in new:
            lines = new.split("\n")
            k = 0
            while lines[k].startswith("//"):
                k += 1
            gap = [""] if lines[k] else []
            lines[k:k] = ["#![tactic(auto)]"] + gap
            new = "\n".join(lines)
        if new != old:
            open(p, "w", encoding="utf-8").write(new)


def main(argv):
    if argv[:1] == ["--table"]:
        rows, own, _ = table(argv[1])
        with open(TABLE, "w", encoding="utf-8") as f:
            for a, b in rows.items():
                f.write(f"{a}\t{b}\n")
        for a, b in rows.items():
            if b in own:
                print("declared already:", a, b)
        news = {}
        for a, b in rows.items():
            if news.setdefault(b, a) != a:
                print("fall together:", a, news[b], b)
        for p in files(argv[1], (".antt", ".rt")):
            t = tokens(open(p, encoding="utf-8").read())
            for w in t:
                if w in rows and rows[w] in t:
                    print("meet:", os.path.relpath(p, argv[1]), w, rows[w])
        return
    root = argv[0] if argv else "."
    lines = [line.rstrip("\n").split("\t") for line in open(TABLE, encoding="utf-8")]
    rows = {it[0]: it[1] for it in lines if len(it) == 2}
    turn(root, rows, {it[0]: it[1] for it in lines}, table(root)[2])
    modern(root)


main(sys.argv[1:])
