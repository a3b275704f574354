#!/usr/bin/env python3
"""Brings the definitions and lemmas of this repository to the spelling of today's library, after port.py.

usage: tools/port/respell.py [--names FILE]     in the repository, once

Words are in snake case, types and modules in camel case. Within a lemma's name a dash stays where it joins two names, that is where the words on
both sides are definitions; elsewhere it becomes an underscore. Names of src/, strings, inputs and outputs keep their spelling.
A name that would fall together with another gets the ending that TAKEN gives it, or the script stops and names it.
--names writes old and new spelling, a pair a line.
"""
import os, re, sys, collections

WORD = re.compile(r"[^\s(){}\[\],.;:\"`λ→×⌜⌝]+")
HEAD = re.compile(r"^(?:abbrev |unfoldable |pub )*(record |data )?([^\s:(){}]+)(?=\s*(?::|\(|\{|$))")
FIELD = re.compile(r"^ +pub ([^\s:(){}]+) :")
CAMEL = re.compile(r"[a-z][a-z0-9]*(?:[A-Z][a-z0-9]*)+")
MADE = re.compile(r"^  ([^\s:(){}]+) :")
ALIAS = re.compile(r"\bas ([^\s,{}()]+)")
# Names of lists and numbers that lemmas speak of beside the repository's own definitions.
LISTS = set("length append drop take set get_or replicate map reverse nil cons suc zero add mul mod div".split())
# Names that would fall together, and what they are called instead.
TAKEN = {"row_Line": "line_of_row"}
# Names that the library has too, with this spelling.
KEPT = {"zero-le", "and-false", "and-true"}
# Modules whose names Rattle now makes itself: crate, old and new name.
MODULES = [("contracts", "Contracts", "Promises"), ("copy_contracts", "Contracts", "Promises")]


def texts(root):
    for folder, dirs, files in os.walk(os.path.join(root, "crates")):
        dirs[:] = sorted(d for d in dirs if d not in ("out", "must-fail"))
        for f in sorted(files):
            if f.endswith((".antt", ".rt")):
                yield os.path.join(folder, f)


def snake(word):
    if word[:1].isupper():
        return word
    word = re.sub(r"(?<=[a-z0-9₀-₉])([A-Z])", r"_\1", word)
    return re.sub(r"[A-Z]", lambda m: m.group(0).lower(), word)


PATH = re.compile(r"\b(?:Rattle|borrow|native|mathlib|lib|Prim|denote|seplogic)\.[^\s{}]*")


def collect(root):
    """Returns the names declared outside Proof.antt, those declared in specs/, and the fields of records."""
    names, specs, fields = set(), set(), set()
    for p in texts(root):
        if not p.endswith(".antt") or p.endswith("/Proof.antt"):
            continue
        inside, data = "/specs/" in p, False
        for line in open(p, encoding="utf-8"):
            if line.startswith("--"):
                continue
            if not line.startswith(" "):
                data = line.startswith(("data ", "pub data "))
            m = MADE.match(line) if data else None
            if m:
                names.add(m.group(1))
                continue
            # names of sections and where blocks, and variables: only those that cannot be the library's
            names.update(w for w in WORD.findall(PATH.sub("", line)) if CAMEL.fullmatch(w))
            if line.startswith("use "):
                names.update(ALIAS.findall(line))
                continue
            m = FIELD.match(line)
            if m:
                fields.add(m.group(1))
                continue
            if line.startswith(("unfolding", " ", "mod ", "pub mod ")):
                continue
            m = HEAD.match(line)
            if m and not m.group(2) in ("abbrev", "pub", "unfoldable", "infixr", "infixl"):
                names.add(m.group(2))
                if inside and not m.group(1):
                    specs.add(m.group(2))
    return names, specs, fields


def spelled(name, known):
    parts = [snake(p) for p in name.split("-")]
    out = parts[0]
    for a, b in zip(parts, parts[1:]):
        last = a.split("_")[-1] if a not in known else a
        both = (a in known or last in known or a[:1].isupper()) and b in known
        out += ("-" if both else "_") + b
    return out


def turn(line, names, fields, rt):
    """Turns the words of a line: not in strings; in comments only words that cannot be English."""
    start = "//" if rt else "--"
    cut = None
    quoted = False
    for k in range(len(line)):
        if line[k] == '"' and (k == 0 or line[k - 1] != "\\"):
            quoted = not quoted
        if not quoted and line.startswith(start, k) and (k == 0 or line[k - 1] in " \t"):
            cut = k
            break
    code, comment = (line, "") if cut is None else (line[:cut], line[cut:])

    def word(m):
        w, s = m.group(0), m.string
        before, behind = s[: m.start()], s[m.end() :]
        if before.endswith(".") and re.search(r"[A-Za-z]\.$", before) and w not in fields and w in names and "-" not in w and w == w.lower():
            return w
        if w in fields and (before.endswith(".") or re.fullmatch(r" +pub ", before) or (re.match(r" = ", behind) and before and not before.endswith("let "))):
            return fields[w]
        return names.get(w, fields.get(w, w))

    pieces = re.split(r'(b?"(?:[^"\\]|\\.)*")', code)
    code = "".join(p if n % 2 else WORD.sub(word, p) for n, p in enumerate(pieces))

    def said(m):
        w = m.group(0)
        return names.get(w, w) if re.search(r"[a-z][A-Z]", w) else w

    comment = re.sub(r"`([^`]*)`", lambda m: "`" + WORD.sub(word, m.group(1)) + "`", comment)
    comment = re.sub(r"[A-Za-z0-9_'-]+", said, comment)
    return code + comment


def main():
    root = os.getcwd()
    names, specs, own_fields = collect(root)
    known = {snake(n) for n in specs if "-" not in n} | LISTS
    fields = {n: snake(n.replace("-", "_")) for n in own_fields if snake(n.replace("-", "_")) != n}
    plain = {snake(n) for n in names if "-" not in n}
    camel = {snake(n) for n in names if "-" not in n and snake(n) != n}
    # Lemmas that port.py brought to the spelling of a definition: in proofs/ and specs/ alone, since functions of src/ keep their names.
    inside = {n: n + "_lem" for n in names if n in camel}
    turned = {}
    for n in sorted(names):
        if not re.match(r"[A-Za-z]", n) or n in KEPT:
            continue
        new = spelled(n, known)
        if "-" in n and new in plain:
            new += "_lem"
        new = TAKEN.get(n, new)
        if new != n:
            turned[n] = new
    back = collections.defaultdict(set)
    for n, new in turned.items():
        back[new].add(n)
    bad = 0
    for new, olds in sorted(back.items()):
        if len(olds) > 1 or (new in names and new not in turned and new not in inside):
            bad += 1
            print("together:", new, sorted(olds))
    for p in texts(root):
        t = open(p, encoding="utf-8").read()
        t = "\n".join(PATH.sub("", re.split(r" -- | // ", l)[0]) for l in t.split("\n") if not l.startswith(("--", "//")))
        words = set(WORD.findall(t))
        for n in sorted(words & set(turned)):
            if turned[n] in words and not (p.endswith("/Proof.antt") and "-" in n):
                print("taken:", n, turned[n], os.path.relpath(p, root))
    if "--dry" in sys.argv:
        print(len(turned), "names", len(fields), "fields", bad, "together")
        return 1 if bad else 0
    for p in texts(root):
        t = open(p, encoding="utf-8").read()
        all_names = turned if p.endswith(".rt") else {**turned, **inside}
        new = "\n".join(turn(l, all_names, fields, p.endswith(".rt")) for l in t.split("\n"))
        new = new.replace("under the same name with hyphens", "under the same name in snake case")
        for crate, a, b in MODULES:
            new = new.replace(f"Rattle.{crate}.specs.{a}.", f"Rattle.{crate}.specs.{b}.")
            if p.endswith(f"/{crate}/specs/Lib.antt"):
                new = re.sub(rf"(?m)^pub mod {a}$", f"pub mod {b}", new)
        if new != t:
            open(p, "w", encoding="utf-8").write(new)
    for crate, a, b in MODULES:
        specs = os.path.join(root, "crates", crate, "specs")
        if os.path.exists(os.path.join(specs, a + ".antt")):
            os.rename(os.path.join(specs, a + ".antt"), os.path.join(specs, b + ".antt"))
    if "--names" in sys.argv:
        with open(sys.argv[sys.argv.index("--names") + 1], "w", encoding="utf-8") as f:
            for n, new in sorted(turned.items()):
                f.write(f"{n} {new}\n")
            for n, new in sorted(fields.items()):
                f.write(f".{n} .{new}\n")
            for n, new in sorted(inside.items()):
                f.write(f"proofs:{n} {new}\n")
    print(f"{len(turned)} names, {len(fields)} fields respelled")
    return 0


if __name__ == "__main__":
    raise SystemExit(main())
