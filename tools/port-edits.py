#!/usr/bin/env python3
"""Writes the must-fail edits anew over the turned files.

usage: python3 tools/port-edits.py LIST FOLDER

Each edit of the last landing was applied to the file that it names, and the file so made was turned by port.py and
tools/port-names.py beside the file itself: FOLDER is that tree, and LIST a list of (edit, file, file with the edit). The
lines in which the two turned files differ are the edit in today's spelling. An edit that still makes just that stays as it
is. What has to be done by hand is printed.
"""

import difflib
import json
import os
import sys


def read(p):
    with open(p, encoding="utf-8") as f:
        return f.read()


def pairs(edit):
    out, file = [], None
    for line in read(edit).split("\n"):
        if line.startswith("file:"):
            file = line[5:].strip()
        elif line.startswith("old:"):
            old = line[5:] if line.startswith("old: ") else line[4:]
        elif line.startswith("new:"):
            out.append((file, old, line[5:] if line.startswith("new: ") else line[4:]))
    return out


def applied(text, changes):
    for _, old, new in changes:
        if text.count(old) != 1:
            return None
        text = text.replace(old, new)
    return text


def main(argv):
    entries = json.load(open(argv[0], encoding="utf-8"))
    kept, written, left = 0, 0, []
    for edit, file, other in entries:
        a = read(os.path.join(argv[1], file)).split("\n")
        b = read(os.path.join(argv[1], other)).split("\n")
        now = read(file)
        ops = [o for o in difflib.SequenceMatcher(None, a, b, autojunk=False).get_opcodes() if o[0] != "equal"]
        want, lines, ok = now, [], True
        for _, i, i2, j, j2 in ops:
            if i2 - i != j2 - j:
                ok = False
                break
            for x, y in zip(a[i:i2], b[j:j2]):
                if now.count(x) == 1 or now.split("\n").count(x) == 1:
                    lines.append((x, y))
                else:
                    ok = False
        if ok:
            rows = now.split("\n")
            for x, y in lines:
                if rows.count(x) != 1:
                    ok = False
                    break
                rows[rows.index(x)] = y
            want = "\n".join(rows)
        changes = pairs(edit)
        if ok and applied(now, changes) == want:
            kept += 1
            continue
        if not ok:
            left.append(edit)
            continue
        head = [l for l in read(edit).split("\n") if not l.startswith(("file:", "old:", "new:"))]
        short = os.path.join(*file.split("/")[2:])
        text = ["\n".join(head).strip()] if "\n".join(head).strip() else []
        text.append(f"file: {short}")
        sofar = now
        for x, y in lines:
            o, n = x.strip(), y.strip()
            if sofar.count(o) != 1:
                o, n = x, y
            if sofar.count(o) != 1:
                ok = False
            sofar = sofar.replace(o, n)
            text += [f"old: {o}", f"new: {n}"]
        if not ok or sofar != want:
            left.append(edit)
            continue
        written += 1
        with open(edit, "w", encoding="utf-8") as f:
            f.write("\n".join(text) + "\n")
    print(f"{kept} kept, {written} written anew, {len(left)} left")
    for e in left:
        print("left:", e)


if __name__ == "__main__":
    main(sys.argv[1:])
