#!/usr/bin/env python3
"""Spells this repository's own definitions, lemmas, constructors and fields in snake case, as `from-start` to `from_start`.

usage: snake_names.py [--list] ROOT     --list only prints the names, and where a new spelling meets another name

A name turns if a file of specs/ or proofs/ below ROOT/crates declares it and it has a dash; three parameters and aliases
that no line declares turn too. The definitions of a list below, each beside a function or a clause of that name, get
`_lem`. Names that a file of answers declares at one of Rattle's own, and names of libraries, stay. In .rt files clauses,
ghost items and comments turn, and strings stay; in must-fail edits and in docs/ every whole word turns. It is to be run
once, right after the kit's own script.
"""

import os
import re
import sys

WORD = re.compile(r'[^\s(){}.;,@"«»`\[\]|]+')
DECLARED = re.compile(r"(?m)^ *(?:(?:pub|abbrev|unfoldable|private|field|let) +)*([^\s(){}.;,@\"«»:]+)((?: +[^\s(){}.;,@\"«»:]+)*)(?: \{[^{}\n]*\})* :(?= |$)")
# Definitions that would have the name of a function, or of one of its clauses, beside which they stand.
BESIDE_A_FUNCTION = set(
    "answer-number answer-rule first-number head-fits layer-number line-for loads-back put-frame put-words role-of"
    " rule-for second-number writes-back".split()
)
MADE = re.compile(r"(?<![\w-])(?:goal|need|c|l|initial|fn)\.([^\s(){}.;,@\"«»]+)")
OWN = re.compile(r"/proofs/(?:.*/)?(?:Answers|Invariants|Choices|Proof)\.antt$")

# Parameters and aliases, which no line declares.
OTHERS = "node-room type-room record-case".split()


def files(root, ends):
    for folder, dirs, names in os.walk(root):
        dirs[:] = sorted(d for d in dirs if d not in ("out", "target", ".git"))
        for n in sorted(names):
            if n.endswith(ends):
                yield os.path.join(folder, n)


def read(path):
    with open(path, encoding="utf-8") as f:
        return f.read()


def without_comments(text):
    return re.sub(r"(?m)(?:^|(?<=\s))--(?=\s|$)[^\n]*", "", text)


def declared(root):
    names = {}
    for path in files(os.path.join(root, "crates"), ".antt"):
        text = without_comments(read(path))
        own = set(MADE.findall(text)) if OWN.search(path) else set()
        for m in DECLARED.finditer(text):
            for name in (m[1] + m[2]).split():
                if "-" in name and re.fullmatch(r"[^\W\d_][\w-]*'*", name) and name not in own:
                    names.setdefault(name, set()).add(path)
    return names


def turned(name):
    return name.replace("-", "_") + ("_lem" if name in BESIDE_A_FUNCTION else "")


def in_antt(text, table):
    def turn(m):
        if m[0] not in table:
            return m[0]
        made = re.search(r"(?<![\w-])(?:goal|need|c|l)\.$", text[max(0, m.start() - 6) : m.start()])
        return m[0].replace("-", "_") if made else table[m[0]]

    return WORD.sub(turn, text)


QUIET = re.compile(r'b?"(?:\\.|[^"\\])*"|b?\'(?:\\u\{[0-9a-fA-F_]+\}|\\x..|\\.|[^\'\\])\'')


def in_rust(text, table):
    out, at = [], 0
    for m in QUIET.finditer(text):
        out += [in_antt(text[at : m.start()], table), m[0]]
        at = m.end()
    return "".join(out) + in_antt(text[at:], table)


def main(argv):
    root = argv[-1]
    names = declared(root)
    table = {n: turned(n) for n in [*names, *OTHERS]}
    if "--list" in argv:
        words = {}
        for path in files(os.path.join(root, "crates"), (".antt", ".rt")):
            for w in set(WORD.findall(read(path))):
                words.setdefault(w, set()).add(path)
        for n in sorted(names):
            note = ""
            if turned(n) in words:
                note += f"  MEETS {turned(n)} in " + " ".join(sorted(os.path.relpath(p, root) for p in words[turned(n)])[:6])
            print(n + note)
        return 0
    for path in files(os.path.join(root, "crates"), (".antt", ".rt", ".edit")):
        text = read(path)
        new = in_rust(text, table) if path.endswith(".rt") else in_antt(text, table)
        if new != text:
            with open(path, "w", encoding="utf-8") as f:
                f.write(new)
    for path in files(os.path.join(root, "docs"), ".md"):
        if os.path.basename(path).startswith("PORT"):
            continue
        text = read(path)
        new = in_antt(text, table)
        if new != text:
            with open(path, "w", encoding="utf-8") as f:
                f.write(new)
    return 0


if __name__ == "__main__":
    raise SystemExit(main(sys.argv[1:]))
