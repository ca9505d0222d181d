#!/usr/bin/env python3
"""Turns the older Proof.antt files, lists of needs, into today's Invariants.antt and Answers.antt.

usage: python3 tools/port-proofs.py NAMES [CRATE..]

NAMES is the names.json that `rt check --generated DIR --old-names` writes, of the crate or of all library crates laid
together as the modules of one crate. Each crates/CRATE/proofs/F/Proof.antt is replaced. What it could not turn is printed.
"""

import json
import os
import re
import sys

BARE = r"(?<![\w'.-])"
END = r"(?![\w'-])"


def norm(n):
    return n.replace("-", "_").replace("'", "_")


def clauses(root):
    """For each function CRATE::a::f the names of its requires and ensures clauses, in their order."""
    found = {}
    for crate in sorted(os.listdir(os.path.join(root, "crates"))):
        src = os.path.join(root, "crates", crate, "src")
        for folder, _, names in os.walk(src):
            for n in names:
                p = os.path.join(folder, n)
                rel = os.path.relpath(p, src)[:-3].replace("/", "::")
                mod = [] if rel in ("lib", "main") else rel.split("::")
                owner, fn = None, None
                for line in open(p, encoding="utf-8"):
                    m = re.match(r"impl(?:<[^>]*>)? (?:\w+ for )?(\w+)", line)
                    if m:
                        owner = m[1]
                    elif line.startswith("}"):
                        owner = None
                    m = re.match(r"\s*(?:pub )?(?:const )?fn (\w+)", line)
                    if m:
                        fn = "::".join([crate] + mod + ([owner] if owner and line.startswith(" ") else []) + [m[1]])
                        found[fn] = {"requires": [], "ensures": []}
                    m = re.match(r"\s*(requires|ensures)\s+(\w+)?\s*\{", line)
                    if m and fn:
                        found[fn][m[1]].append(m[2])
    return found


class Function:
    def __init__(self, key, data, callee_clauses, own):
        self.steps, self.places, self.goals, self.asked = {}, {}, {}, {}
        self.callee, self.parent = {}, {}
        self.clauses, self.own = callee_clauses, own
        self.loops = []
        for (old, parent, step, callee, _), new in zip(data["places"], data["places_by_name"]):
            self.places[norm(old)] = new
            self.parent[new] = norm(parent) if parent else None
            if step[0]:
                self.steps[norm(step[0])] = step[1]
                if callee:
                    self.callee[step[1]] = callee
        for (old, new), (_, at) in zip(data["needs"], data["asked_at"]):
            self.goals[norm(old)] = new
            self.asked[new] = at
        self.order = [new for _, new in data["needs"]]
        # a fact of an arm: the older step and path, the arm and today's field
        self.arms = {}
        for arm in data["arms"]:
            for new, step, old in arm[2] if arm else []:
                self.arms[(norm(step), tuple(old))] = [arm[0], new]
        self.loops = list(zip(data["loops"], data["changed"]))
        self.params = data["params"]
        # an arm is made in steps: the last of its places is meant
        last = set(data["places_by_name"])
        for old, new in list(self.places.items()):
            m = re.match(r"(In.*)-\d+$", new)
            if m and m[1] in last:
                self.places[old] = m[1]

    def goal(self, old):
        n = norm(old)
        if n.startswith("overflow_") and n[9:] in self.goals:
            n = n[9:]
        return self.goals.get(n)

    def names_of(self, step, kind):
        if step is None:
            return self.own.get(kind, [])
        return self.clauses.get(self.callee.get(step, ""), {}).get(kind, [])


def blocks(text):
    """The file's head and its declarations."""
    head, decls, cur = [], [], None
    pending = []
    for line in text.split("\n"):
        if re.match(r"(use |pub use )", line) and cur is None:
            head.append(line)
        elif re.match(r"--", line):
            pending.append(line)
            if cur is None and not decls and not head:
                head.append(line)
                pending = []
        elif re.match(r"(abbrev |unfoldable |pub |private )*[^\s(){}:]+(\s*\{[^}]*\})*\s*:(?!=)", line) and not line.startswith(" "):
            cur = {"comment": pending, "sig": line, "rest": []}
            pending = []
            decls.append(cur)
        elif cur is not None:
            cur["rest"] += pending + [line]
            pending = []
        elif line.strip():
            head.append(line)
    for d in decls:
        while d["rest"] and not d["rest"][-1].strip():
            d["rest"].pop()
        # a signature over several lines
        while d["rest"] and d["rest"][0].startswith(" ") and not re.match(r"\s*(let|λ)\b", d["rest"][0]) and not d["sig"].rstrip().endswith("="):
            d["sig"] += "\n" + d["rest"].pop(0)
    return head, decls


def clause_path(names, digits):
    """`.1.0` of nested pairs as the name of a clause, and what is left."""
    i = 0
    for k, d in enumerate(digits):
        if i >= len(names) - 1:
            return i, digits[k:]
        if d == "0":
            return i, digits[k + 1:]
        i += 1
    return (i, []) if i == len(names) - 1 else (None, digits)


class Turner:
    def __init__(self, fn, helpers, said):
        self.fn, self.helpers, self.said = fn, helpers, said
        self.used = set()

    def path(self, m, at, goal):
        """One path: a root, its fields."""
        fn = self.fn
        root, fields = m[1], [f[:-4] if f.endswith("_lem") else f for f in m[2].split(".")[1:]]
        at_place = at[root]
        befores = 0
        while fields and fields[0] == "before":
            fields.pop(0)
            befores += 1
        if not fields:
            return f"\0{root}:{befores}:{at_place}\0"
        out = ["c"]
        step = None
        head = fields[0]
        arm = next((k for k in range(len(fields), 0, -1) if (norm(head), tuple(norm(f) for f in fields[1:k])) in fn.arms), None)
        if arm:
            out += fn.arms[(norm(head), tuple(norm(f) for f in fields[1:arm]))]
            fields = fields[arm:]
        elif norm(head) in fn.steps:
            step = fn.steps[norm(head)]
            out.append(step)
            fields = fields[1:]
        k = 0
        while k < len(fields):
            f = fields[k]
            out.append(f)
            k += 1
            if f in ("new", "auto") and step in fn.callee:
                ones = 0
                while k < len(fields) and fields[k] == "1":
                    ones += 1
                    k += 1
                params = fn.params.get(fn.callee[step], [])
                if k < len(fields) and fields[k] == "0" and ones < len(params):
                    out.append(params[ones])
                    k += 1
                else:
                    out += ["1"] * ones
            if f in ("requires", "ensures"):
                digits = []
                while k < len(fields) and fields[k] in ("0", "1"):
                    digits.append(fields[k])
                    k += 1
                names = fn.names_of(step, f)
                if len(names) > 1 and digits:
                    i, rest = clause_path(names, digits)
                    if i is None or names[i] is None:
                        self.said.append(f"clause {'.'.join(out)} {digits}")
                        out += digits
                    else:
                        out += [names[i]] + rest
                else:
                    out += digits
        return ".".join(out)

    def body(self, text, root, place, goal):
        """Turns a body whose record is `root`, at `place`."""
        at = {root: place}
        lines, out = text.split("\n"), []
        for line in lines:
            m = re.match(rf"^(.*?)let ({BARE}[\w'-]+) = ([\w'-]+)((?:\.before)+) in\s*(.*)$", line)
            if m and m[3] in at:
                at[m[2]] = ("up", m[3], m[4].count("before"), at[m[3]])
                line = m[1] + m[5]
                if not line.strip():
                    continue
            out.append(line)
        text = "\n".join(out)
        roots = "|".join(re.escape(r) for r in sorted(at, key=len, reverse=True))
        text = re.sub(rf"{BARE}({roots})((?:\.[\w'-]+)*){END}", lambda m: self.path(m, at, goal), text)
        # bare records, as arguments of lemmas over a place
        def bare(m):
            if m[1] == "at" and m[2] == "0":
                return "at"
            before = text_before(text, m.start())
            for h, want in self.helpers.items():
                if re.search(rf"{BARE}{re.escape(h)}\s*$", before):
                    self.used.add(want)
                    if goal:
                        return f"(goal.at.{goal} c).{want}"
                    n = self.distance(place, want)
                    return "c" + ".before" * n if n is not None else f"c.BEFORE-{want}"
            if m[2] == "0" and m[1] == root:
                return "c"
            for a, want in self.answers.items():
                if re.search(rf"{BARE}{re.escape(a)}\s*$", before):
                    return "c"
            self.said.append(f"a bare record {m[1]} in {goal or place}")
            return "c"
        return re.sub("\0([^:\0]*):(\\d+):[^\0]*\0", bare, text)

    def distance(self, place, want):
        n, here = 0, place
        while here and here != want and n < 200:
            p = self.fn.parent.get(here)
            here = self.fn.places.get(p) if p else None
            n += 1
        return n if here == want else None


def text_before(text, i):
    return text[max(0, i - 200):i]


def turn_file(path, crate, data, all_clauses, say):
    rel = os.path.relpath(os.path.dirname(path), os.path.join("crates", crate, "proofs"))
    parts = rel.split("/")
    key = next((k for k in (f"Rattle-all-proofs.{crate}.{'.'.join(parts)}.Lts", f"Rattle-{crate}-proofs.{'.'.join(parts)}.Lts") if k in data), None)
    if key is None:
        say(f"{path}: no names")
        return
    callee = {}
    for name, c in all_clauses.items():
        callee[name] = c
        callee["all::" + name] = c
    own = all_clauses.get("::".join([crate] + parts), {})
    fn = Function(key, data[key], callee, own)
    text = open(path, encoding="utf-8").read()
    head, decls = blocks(re.sub(r"\.type-inv(?![\w'-])", ".type_inv", text.replace(".well-formed", ".well_formed")))
    said = []
    local = {}
    helpers, kinds = {}, []
    spec_args = []
    for d in decls:
        name = re.match(r"(?:(?:abbrev|unfoldable|pub|private)\s+)*([^\s(){}:]+)", d["sig"])[1]
        d["name"] = name
        if re.search(r"[-_]spec :", d["sig"]) and "statement M" in d["sig"]:
            d["kind"] = "spec"
            t = "\n".join(d["rest"])
            spec_args = arguments(t[t.index("tie.spec") + 8:])
        elif re.search(r":\s*tie\.(invariant|decreases)-", d["sig"]):
            d["kind"] = "invariant"
        elif re.search(r":\s*tie\.Need-", d["sig"]):
            d["kind"] = "answer"
            d["old"] = re.search(r"tie\.Need-([\w'-]+)", d["sig"])[1]
            d["new"] = fn.goal(d["old"])
            if d["new"] is None:
                said.append(f"no goal for {d['old']}")
                d["kind"] = "gone"
        else:
            d["kind"] = "helper"
            m = re.search(r"\((\w+) : tie\.([\w'-]+)[^)]*\)", d["sig"])
            if m:
                place = fn.places.get(norm(m[2]))
                if place is None:
                    said.append(f"no place for {m[2]}")
                    place = m[2]
                d["root"], d["place"] = m[1], place
                helpers[name] = place
    turner = Turner(fn, helpers, said)
    turner.answers = {d["name"]: d["new"] for d in decls if d["kind"] == "answer"}
    answers, invariants = [], []
    # invariants and measures
    for d in decls:
        if d["kind"] != "invariant":
            continue
        m = re.search(r"tie\.((invariant|decreases)-([\w'-]+))", d["sig"])
        found = None
        for (names, vars_), changed in fn.loops:
            if norm(names[0]) == norm(m[3]):
                found = (names[1], vars_, changed)
        if found is None:
            said.append(f"no loop for {m[1]}")
            continue
        new = f"{m[2]}-{found[0]}"
        body = "\n".join(d["rest"])
        b = re.match(rf"\s*{re.escape(d['name'])}\s*([^=]*?)\s*=(.*)$", body, re.S)
        binders, rest = b[1].split(), b[2]
        if len(binders) < len(found[1]) + sum(found[2]):
            # handles that the older functions did not have
            own_vars = [(v, ch) for v, ch in zip(found[1], found[2]) if v not in ("stdin", "stdout", "stderr")]
            found = (found[0], [v for v, _ in own_vars], [ch for _, ch in own_vars])
        moved = [v for v, ch in zip(found[1], found[2]) if ch]
        want = [f"l.initial.{v}" if ch else f"l.{v}" for v, ch in zip(found[1], found[2])] + [f"l.{v}" for v in moved]
        if len(binders) != len(want):
            said.append(f"{m[1]} has {len(binders)} binders for {len(want)}: {' '.join(found[1])}")
        table = {x: w for x, w in zip(binders, want) if x != "_"}
        if table:
            pat = re.compile(rf"{BARE}({'|'.join(re.escape(x) for x in sorted(table, key=len, reverse=True))}){END}(?!\s*=[^=>])")
            rest = pat.sub(lambda k: table[k[1]], rest)
        d["out"] = f"abbrev pub {new} : goal.{new}\n{new} l ={rest}"
        invariants.append(d)
    # answers and helpers
    for d in decls:
        body = "\n".join(d["rest"])
        if d["kind"] == "answer":
            m = re.search(rf"(?m)^{re.escape(d['name'])}((?: [\w'_]+)*) =", body)
            if not m:
                said.append(f"the form of {d['name']}")
                continue
            args = m[1].split()
            root = args[0] if args else "c"
            body = body[:m.start()] + f"{d['new']} c =" + body[m.end():]
            for i, line in enumerate(body.split("\n")):
                pass
            lead, tail = body.split(f"{d['new']} c =", 1)
            tail = turner.body(tail, root, fn.asked[d["new"]], d["new"])
            for a in args[1:]:
                if re.search(rf"{BARE}{a}{END}", tail):
                    said.append(f"{a} is used in {d['new']}")
            tail = fields_of(fn, tail)
            tail = re.sub(r"not-(?:true|false) [^\s()]+ (c\.if-not-[\w'-]+\.(?:true|false))", r"\1", tail)
            tail = re.sub(r"\((c\.if-not-[\w'-]+\.(?:true|false))\)", r"\1", tail)
            tail = as_record(tail, asked_clauses(fn, d["new"]))
            d["out"] = f"pub {d['new']} : goal.{d['new']}\n{lead}{d['new']} c ={tail}"
            answers.append(d)
        elif d["kind"] == "helper":
            sig = d["sig"]
            if "place" in d:
                sig = re.sub(r"tie\.[\w'-]+[^)]*", d["place"], sig, count=1)
                turner.used.add(d["place"])
                whole = sig + "\n" + body
                i = whole.index(d["place"]) + len(d["place"])
                d["out"] = whole[:i] + turner.body(whole[i:], d["root"], d["place"], None)
            else:
                d["out"] = sig + ("\n" + body if body else "")
            answers.append(d)
    # names of answers in other answers
    for d in answers:
        for e in answers:
            if e["kind"] == "answer" and e is not d and re.search(rf"{BARE}{re.escape(e['name'])}{END}", d["out"]):
                at = fn.asked[e["new"]]
                if d["kind"] != "answer":
                    said.append(f"{d['name']} cites the answer {e['name']} ({e['new']})")
                elif fn.asked[d["new"]] == at:
                    d["out"] = re.sub(rf"(?<=[^\n]){BARE}{re.escape(e['name'])} c{END}", f"{e['new']} c", d["out"])
                else:
                    cites = rf"(?<=[^\n]){BARE}{re.escape(e['name'])} c{END}"
                    if re.search(cites, d["out"]):
                        turner.used.add(at)
                        d["out"] = re.sub(cites, f"{e['new']} (goal.at.{d['new']} c).{at}", d["out"])
    # arguments written in place
    named = {d["name"]: d for d in decls}
    needs = [a for a in spec_args if not re.match(r"(invariant|decreases)-", a)]
    if len(needs) == len(fn.order):
        places = dict(enumerate(fn.order))
    else:
        places = align(needs, named, fn.order)
    for i, a in enumerate(needs):
        if not a.startswith("("):
            continue
        m = re.match(r"\(λ (\w+)(?: κs)?\.\s*(.*)\)$", a, re.S)
        if not m or m[2].strip() in ("tt", "search rules", "omega arith", "refl", "_"):
            continue
        new = places.get(i)
        if new is None:
            said.append(f"in place: {a}")
            continue
        tail = turner.body(m[2], m[1], fn.asked[new], new)
        answers.append({"kind": "answer", "new": new, "name": new, "comment": [], "out": f"pub {new} : goal.{new}\n{new} c = {tail}"})
    write(path, crate, parts, head, decls, invariants, answers, turner.used)
    for s in said:
        say(f"{path}: {s}")


def fields_of(fn, tail):
    """Clauses of a step that a `let` names, as `far.ensures.0` after `let far = c.f in`."""
    for name, step in re.findall(r"let ([\w'-]+) = c\.([\w'-]+) in", tail):
        for kind in ("ensures", "requires"):
            names = fn.names_of(step, kind) if step in fn.callee else []
            if len(names) < 2:
                continue

            def one(m):
                i, rest = clause_path(names, m[1].split(".")[1:])
                return m[0] if i is None or names[i] is None else ".".join([f"{name}.{kind}.{names[i]}"] + rest)

            tail = re.sub(rf"{BARE}{re.escape(name)}\.{kind}((?:\.[01])+)(?![\w'])", one, tail)
    return tail


def asked_clauses(fn, goal):
    if goal.startswith("returns"):
        return fn.own.get("ensures", [])
    if "-requires" in goal:
        step = goal[: goal.index("-requires")]
        if step in fn.callee:
            return fn.names_of(step, "requires")
        for s, c in fn.callee.items():
            if s.split("-")[0] == step:
                return fn.names_of(s, "requires")
    return []


def split_tuple(t):
    """The two parts of a pair in parentheses, the second with all that follows the first comma."""
    t = t.strip()
    if not t.startswith("("):
        return None
    d, parts, start = 0, [], 1
    for i, ch in enumerate(t):
        if ch in "([{":
            d += 1
        elif ch in ")]}":
            d -= 1
            if d == 0:
                if i != len(t) - 1:
                    return None
                parts.append(t[start:i])
        elif ch == "," and d == 1:
            parts.append(t[start:i])
            start = i + 1
    parts = [x.strip() for x in parts]
    if parts and not parts[-1]:
        parts.pop()
    return parts if len(parts) > 1 else None


def as_record(tail, names):
    """A tuple at the end of an answer to named clauses, as a record of them."""
    if len(names) < 2 or any(n is None for n in names):
        return tail
    for i in sorted({i for i in range(len(tail)) if tail[i] == "("}):
        before = tail[:i].rstrip()
        inner = bool(before) and not re.search(r"\bin$", before)
        if inner and not re.search(r"\brw\b", before):
            continue
        parts, rest = [], tail[i:]
        while len(parts) < len(names) - 1:
            got = split_tuple(rest)
            if not got:
                break
            if len(got) > 2:
                parts += got[:-1]
                rest = got[-1]
            else:
                parts.append(got[0])
                rest = got[1]
        parts.append(rest.strip())
        if len(parts) == len(names):
            whole = "record { " + "; ".join(f"{n} = {x}" for n, x in zip(names, parts)) + " }"
            return tail[:i] + (f"({whole})" if inner else whole)
    return tail


def align(needs, named, order):
    """Positions of the needs in today's order, where the ones that are named say it."""
    got, j = {}, 0
    anchors = []
    for i, a in enumerate(needs):
        d = named.get(a)
        if d and d.get("new") in order:
            anchors.append((i, order.index(d["new"])))
    ends = [(-1, -1)] + anchors + [(len(needs), len(order))]
    for (i, j), (i2, j2) in zip(ends, ends[1:]):
        if i >= 0 and i < len(needs):
            got[i] = order[j]
        if i2 - i == j2 - j:
            for k in range(1, i2 - i):
                got[i + k] = order[j + k]
    return got


def arguments(t):
    """The arguments of tie.spec, up to the parenthesis that closes it."""
    out, i = [], 0
    while i < len(t):
        c = t[i]
        if c.isspace():
            i += 1
        elif c == "(":
            d, j = 0, i
            while True:
                d += {"(": 1, ")": -1}.get(t[j], 0)
                j += 1
                if d == 0:
                    break
            out.append(t[i:j])
            i = j
        elif c == ")":
            break
        else:
            m = re.match(r"[^\s()]+", t[i:])
            out.append(m[0])
            i += len(m[0])
    return out


def write(path, crate, parts, head, decls, invariants, answers, used):
    folder = os.path.dirname(path)
    mod = f"Rattle.{crate}.proofs.{'.'.join(parts)}"
    comment = [h for h in head if h.startswith("--")]
    uses = [h for h in head if re.match(r"(pub )?use ", h) and ".Statement." not in h and ".Tie as tie" not in h]
    other = [h for h in head if not h.startswith("--") and not re.match(r"(pub )?use ", h) and h.strip()]
    assert not other, (path, other)

    def text(ds):
        return "\n\n".join("\n".join(d["comment"] + [d["out"]]) for d in ds)

    # definitions that the invariants cite
    plain = [d for d in answers if d["kind"] == "helper" and "place" not in d]
    need, more = set(), True
    while more:
        more = False
        whole = text(invariants) + "\n" + text([d for d in plain if d["name"] in need])
        for d in plain:
            if d["name"] not in need and re.search(rf"{BARE}{re.escape(d['name'])}{END}", whole):
                need.add(d["name"])
                more = True
    if invariants:
        below = [d for d in plain if d["name"] in need]
        for d in below:
            d["out"] = re.sub(r"^((?:abbrev |unfoldable )?)(?!pub )", lambda m: m[1] + "pub ", d["out"])
        with open(os.path.join(folder, "Invariants.antt"), "w", encoding="utf-8") as f:
            f.write("\n".join(comment[:1] + uses + [f"use {mod}.Given as goal"]) + "\n\n" + text(below + invariants) + "\n")
        answers = [d for d in answers if d not in below]
        if below:
            uses = uses + [f"use {mod}.Invariants.{{{', '.join(d['name'] for d in below)}}}"]
    if any(d["kind"] == "answer" for d in answers):
        goals = [f"use {mod}.Goals as goal"] + ([f"use {mod}.Goals.{{{', '.join(sorted(used))}}}"] if used else [])
        with open(os.path.join(folder, "Answers.antt"), "w", encoding="utf-8") as f:
            f.write("\n".join(comment + uses + goals) + "\n\n" + text(answers) + "\n")
    os.remove(path)


def main(argv):
    data = json.load(open(argv[0], encoding="utf-8"))
    all_clauses = clauses(".")
    crates = argv[1:] or sorted(os.listdir("crates"))
    n = 0
    for crate in crates:
        for folder, _, names in sorted(os.walk(os.path.join("crates", crate, "proofs"))):
            if "Proof.antt" in names:
                n += 1
                turn_file(os.path.join(folder, "Proof.antt"), crate, data, all_clauses, print)
    print(f"{n} files")


if __name__ == "__main__":
    main(sys.argv[1:])
