#!/usr/bin/env python3
"""Brings this repository's own definitions and lemmas to today's spelling: words in snake case.

usage: python3 tools/port-names.py [--list] [FOLDER]

Run once, after /opt/rattle/port/port.py. It reads the names that specs/ and proofs/ of every crate declare, and respells
those in camel case (floorOf, floor_of) or with dashes (fits-abs, fits_abs) wherever they stand as whole names: in .antt
files, in clauses and ghost lines of .rt files, in must-fail edits, and between backticks in comments and pages of docs/
(landing notes aside). Types, facts and modules keep their upper camel case, names that Rattle makes (after `tie.`, and the
answers to them) keep their dashes. Functions of src/, strings, inputs and outputs are not touched.
--list prints the table and names that would fall together, and writes nothing.
"""

import os
import re
import sys

WORD = r"[^\s(){}\[\],.;:`\"]+"
DECLARED = re.compile(rf"^\s*(?:(?:abbrev|unfoldable|pub|private)\s+)*({WORD})(?:\s+\{{[^}}]*\}})*\s*:(?![=:])")
# Lemmas that would have the name of the definition that they are about.
LEMMAS = """accumulator-at all-of check-field file-size first-steps is-done is-power join-refusal limit-at mac-trap moved-loops
moved-role outside-trap put-memory put-register writes-back control-in engine-at exact-by inner-passes load-work mac-work store-work word-at""".split()
APART = {n: n.replace("-", "_") + "_lem" for n in LEMMAS}


def files(root, endings, below="crates"):
    for folder, dirs, names in os.walk(os.path.join(root, below)):
        dirs[:] = sorted(d for d in dirs if d not in ("out", ".git", "target"))
        for n in sorted(names):
            if n.endswith(endings):
                yield os.path.join(folder, n)


def read(p):
    with open(p, encoding="utf-8") as f:
        return f.read()


def snake(name):
    if name in APART:
        return APART[name]
    name = name.replace("-", "_")
    return re.sub(r"([a-z0-9])([A-Z])", lambda m: m[1] + "_" + m[2].lower(), name)


def declared(text, generated):
    """The names that a file declares, without the answers to goals of Rattle's own."""
    for line in text.split("\n"):
        m = DECLARED.match(line)
        if m and not (generated and re.search(r":\s*tie\.|[-_]spec :", line)):
            yield m[1]


def table(root):
    names = {}
    for p in files(root, ".antt"):
        for n in declared(read(p), os.path.basename(p) == "Proof.antt"):
            if re.match(r"[^\W\d_]", n) and not n[0].isupper() and snake(n) != n:
                names[n] = snake(n)
    return names


def respell(text, names, pattern):
    return pattern.sub(lambda m: names[m[0]], text)


def turn_line(line, comment, names, pattern):
    """Code is respelled, and in a comment what stands between backticks."""
    code, mark, rest = line, "", ""
    i = line.find(comment)
    while i >= 0 and line[:i].count('"') % 2:
        i = line.find(comment, i + 1)
    if i >= 0 and (i == 0 or line[i - 1].isspace()):
        code, mark, rest = line[:i], comment, line[i + len(comment):]
    rest = re.sub(r"`[^`]*`", lambda m: respell(m[0], names, pattern), rest)
    return respell(code, names, pattern) + mark + rest


def turn_rt(text, names, pattern):
    """Clauses and ghost lines, which hold antt; the code keeps its names."""
    out, lent = [], True
    for line in text.split("\n"):
        if re.match(r"\s*(pub )?fn ", line):
            lent = True
        if re.search(r"\bw: &\[u16", line):
            lent = False
        if re.match(r"\s*(ghost use|requires|ensures|ghost)\b|\s*//", line):
            line = turn_line(line, "//", names, pattern)
            line = line.replace("w.entry.now", "w.old" if lent else "w.now").replace("w.exit.now", "w.new")
        out.append(line)
    return "\n".join(out)


def main(argv):
    listing = "--list" in argv
    root = next((a for a in argv if a != "--list"), ".")
    names = table(root)
    pattern = re.compile(r"(?<![\w'-])(?:" + "|".join(re.escape(n) for n in sorted(names, key=len, reverse=True)) + r")(?![\w'-])")
    if listing:
        used = set()
        for p in files(root, ".antt"):
            used |= set(re.findall(r"[\w'-]+", re.sub(r"--.*", "", read(p))))
        back = {}
        for n, m in sorted(names.items()):
            back.setdefault(m, []).append(n)
            print(n, m)
        for m, ns in back.items():
            if len(ns) > 1 or m in used:
                print("together:", m, ns, "stands already" if m in used else "")
        return 0
    for p in files(root, (".antt", ".rt")):
        old = read(p)
        if p.endswith(".rt"):
            new = turn_rt(old, names, pattern)
        else:
            new = "\n".join(turn_line(l, "--", names, pattern) for l in old.split("\n"))
        if new != old:
            with open(p, "w", encoding="utf-8") as f:
                f.write(new)
    for p in [os.path.join(root, "README.md"), *files(root, ".md", "docs")]:
        if "/landings/" in p or not os.path.isfile(p):
            continue
        old = read(p)
        new = re.sub(r"`[^`\n]*`", lambda m: respell(m[0], names, pattern), old)
        if new != old:
            with open(p, "w", encoding="utf-8") as f:
                f.write(new)
    return 0


if __name__ == "__main__":
    raise SystemExit(main(sys.argv[1:]))
