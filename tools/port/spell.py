#!/usr/bin/env python3
"""Spells this repository's definitions and lemmas as today's Rattle spells names: words in snake case, a prime as an apostrophe.

usage: tools/port/spell.py [--check]

Run once, at the top, on the tree that port.py left. A name that specs/ and proofs/ declare outside a function's own folder turns
(jobAt to job_at, settled-is-serial to settled_is_serial); a lemma that would then have the name of a definition ends in _lem.
Types, names of src/ and names that Rattle makes stay. In docs and README the names in code spans turn, in must-fail/*.edit the text.
--check writes nothing and lists the names that turn.
"""

import collections
import os
import re
import sys

WORD = r'[^\s(){}.;,@"«»]+'
TOKEN = re.compile(WORD)
MARKS = r"(?:(?:abbrev|pub|unfoldable|pattern|private) +)*"
DECLARED = re.compile(rf"^ *{MARKS}({WORD})(?: \{{[^{{}}\n]*\}})* :(?: |$)")
RULESET = re.compile(rf"^ *{MARKS}ruleset ({WORD})")
MADE = re.compile(r"(?:^|[\s(){};,])(?:c|w|l|g|tie|goal)['′₀-₉]*(?:\.[^\s(){}.;,]+)*\.$")
# The folder of a function's own proof, or a module of src/, in a path.
FOLDER = re.compile(r"Rattle\.\w+\.(?:proofs|specs\.declared)(?:\.[^\s(){}.;,A-Z][^\s(){}.;,]*)*\.$")
CLAUSE = re.compile(r"^\s*(?:ghost use|requires|ensures|invariant|decreases|ghost)\b")
SPAN = re.compile(r"`[^`\n]+`")
LEMMA = "_lem"


def files(*endings):
    for top in ("crates", "docs", "README.md", "second", "bindings", "bench", "examples", "tools"):
        if os.path.isfile(top):
            yield top
        for folder, folders, names in os.walk(top):
            folders[:] = sorted(f for f in folders if f not in ("out", "target"))
            yield from (os.path.join(folder, n) for n in sorted(names) if n.endswith(endings))


def of_function(path):
    """Whether a file stands in the folder of a function's own proof."""
    return os.path.basename(path) in ("Proof.antt", "Answers.antt", "Invariants.antt")


def snake(name):
    words = re.sub(r"(?<=[a-z0-9])[A-Z]", lambda m: "_" + m[0].lower(), name)
    return words.replace("-", "_").replace("′", "'")


def table():
    where = collections.defaultdict(list)
    for path in files(".antt"):
        if of_function(path):
            continue
        with open(path, encoding="utf-8") as f:
            for line in f:
                for form in (DECLARED, RULESET):
                    m = form.match(line)
                    if m:
                        where[m[1]].append(path)
    turned = {x: x if x[0].isupper() else snake(x) for x in where}
    same = collections.defaultdict(list)
    for x, y in turned.items():
        same[y].append(x)
    for y, xs in same.items():
        if len(xs) > 1:
            # the definition has the name: in camel case before it turned, else the one of specs/
            rank = lambda x: (x == snake(x) or "-" in x, "-" in x, "/specs/" not in where[x][0])
            for x in sorted(xs, key=rank)[1:]:
                turned[x] = y + LEMMA
    return {x: y for x, y in turned.items() if x != y}, set(turned.values())


def in_antt(text, names, made):
    def one(m):
        before = text[max(0, m.start() - 200) : m.start()]
        if FOLDER.search(before) or made and MADE.search(before):
            return m[0]
        return names.get(m[0], m[0])

    return TOKEN.sub(one, text)


def in_clauses(text, names):
    lines, inside = [], False
    for line in text.split("\n"):
        inside = inside or bool(CLAUSE.match(line))
        lines.append(TOKEN.sub(lambda m: names.get(m[0], m[0]), line) if inside else line)
        if inside and line.count("{") == line.count("}") or line.endswith(("};", " }")):
            inside = False
    return "\n".join(lines)


def in_spans(text, names, known):
    def word(m):
        new = names.get(m[0], snake(m[0]))
        return new if new in known else m[0]

    return SPAN.sub(lambda span: TOKEN.sub(word, span[0][1:-1]).join("``"), text)


def main():
    names, known = table()
    if "--check" in sys.argv:
        for x in sorted(names):
            print(x, names[x])
        return
    for path in files(".antt", ".rt", ".md", ".edit"):
        with open(path, encoding="utf-8") as f:
            text = f.read()
        if path.endswith(".antt") or (path.endswith(".edit") and "file: specs/" in text):
            new = in_antt(text, names, of_function(path))
        elif path.endswith(".rt"):
            new = in_clauses(text, names)
        elif path.endswith(".md"):
            new = in_spans(text, names, known)
        else:
            new = text
        if new != text:
            with open(path, "w", encoding="utf-8") as f:
                f.write(new)


main()
