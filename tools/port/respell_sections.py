#!/usr/bin/env python3
"""Brings the lemmas that sections declare to the spelling that respell.py gave the others: an underscore, but for a dash between two names.

usage: tools/port/respell_sections.py     in the repository, once
"""
import os, re, sys

sys.path.insert(0, os.path.dirname(os.path.realpath(__file__)))
import respell as r

TOKEN = re.compile(r"(?<![\w'₀-₉◌.-])[A-Za-z][\w'₀-₉-]*")


def main():
    root = os.getcwd()
    names, specs, _ = r.collect(root)
    known = {r.snake(n) for n in specs if "-" not in n} | r.LISTS
    texts = {p: open(p, encoding="utf-8").read() for p in r.texts(root) if p.endswith(".antt")}
    where = {}
    for p, t in texts.items():
        if p.endswith(("/Proof.antt", "/Answers.antt", "/Invariants.antt")):
            continue
        for l in t.split("\n"):
            m = re.match(r"^ +(?:abbrev |unfoldable |pub )*([^\s:(){}=]+) :", l)
            if m and not l.startswith("--") and "-" in m.group(1) and m.group(1) not in r.KEPT:
                n = m.group(1)
                if r.spelled(n, known) != n:
                    where.setdefault(n, set()).add(p)
    turned = 0
    for p, t in texts.items():
        here = {}
        for n, ps in where.items():
            if n not in t:
                continue
            if p in ps:
                here[n] = None
            for q in ps:
                c, rest = os.path.relpath(q, root).split("/")[1], os.path.relpath(q, root).split("/")[3:]
                mod = ".".join(rest)[: -len(".antt")]
                if re.search(r"use Rattle\." + c + r"\.proofs\." + re.escape(mod) + r"\.\{[^}]*(?<![\w-])" + re.escape(n) + r"(?![\w-])", t):
                    here[n] = None
        if not here:
            continue
        lines = t.split("\n")
        words = {w for l in lines if not l.startswith("--") for w in TOKEN.findall(l)}
        for n in here:
            new = r.spelled(n, known)
            if new in words:
                print(f"taken: {os.path.relpath(p, root)}: {n}")
                new += "_lem"
            here[n] = new
        lines = [l if l.startswith("--") else TOKEN.sub(lambda m: here.get(m.group(0), m.group(0)), l) for l in lines]
        open(p, "w", encoding="utf-8").write("\n".join(lines))
        turned += 1
    print(len(where), "names,", turned, "files")


if __name__ == "__main__":
    main()
