#!/usr/bin/env python3
"""Gives the lemmas of sections that respell.py let fall together with a definition the ending _lem, as it did for the others.

usage: tools/port/sections.py [NAME..]     in the repository: in these crates, or in all

It goes by the text at the commit in docs/PORT.md's first line, where lemmas had dashes and definitions had capitals.
"""
import os, re, subprocess, sys

sys.path.insert(0, os.path.dirname(os.path.realpath(__file__)))
import respell as r


def git(*words):
    return subprocess.run(["git", *words], capture_output=True, text=True).stdout


def code(text):
    return [l for l in text.split("\n") if not l.startswith("--")]


TOKEN = re.compile(r"(?<![\w'′₀-₉◌-])[A-Za-z][\w'′₀-₉-]*")


def main():
    root = os.getcwd()
    landed = open("docs/PORT.md").readline().strip()
    files = [f for f in git("ls-tree", "-r", "--name-only", landed, "crates").split() if f.endswith(".antt")]
    old = {f: git("show", f"{landed}:{f}") for f in files}
    camel, where = set(), {}
    for f, t in old.items():
        inside = False
        for l in code(t):
            camel.update(r.snake(w) for w in TOKEN.findall(l) if r.CAMEL.fullmatch(w))
            if l and not l.startswith(" "):
                inside = l.startswith(("record", "pub record", "data", "pub data"))
            elif l.strip() and not inside:
                m = re.match(r"^ +(?:abbrev |unfoldable |pub )*([^\s:(){}=]+) :", l)
                if m and "-" in m.group(1) and not f.endswith("/Proof.antt"):
                    where.setdefault(m.group(1), set()).add(f)
    names = {n: fs for n, fs in where.items() if n.replace("-", "_") in camel}
    only = sys.argv[1:]
    for f, t in sorted(old.items()):
        crate = f.split("/")[1]
        if only and crate not in only or not os.path.exists(f):
            continue
        here = set()
        for n, fs in names.items():
            if f in fs:
                here.add(n)
            for g in fs:
                c, rest = g.split("/")[1], g.split("/")[3:]
                mod = ".".join(rest)[: -len(".antt")]
                if re.search(r"use Rattle·" + c + r"(?:·proofs\.proofs|\.proofs)\." + re.escape(mod) + r"\.\{[^}]*(?<![\w-])" + re.escape(n) + r"(?![\w-])", t):
                    here.add(n)
        if not here:
            continue
        new = open(f, encoding="utf-8").read()
        lines = new.split("\n")
        for n in sorted(here):
            snake = n.replace("-", "_")
            was = []
            for l in code(t):
                for m in TOKEN.finditer(l):
                    w = m.group(0)
                    if r.snake(w).replace("-", "_") == snake:
                        was.append(w == n and not l[: m.start()].endswith("."))
            now = []
            for i, l in enumerate(lines):
                if l.startswith("--"):
                    continue
                for m in TOKEN.finditer(l):
                    if m.group(0) in (snake, snake + "_lem", r.spelled(n, set())):
                        now.append((i, m.start(), m.end()))
            if len(was) != len(now):
                print(f"{f}: {n}: {len(was)} places then, {len(now)} now: by hand")
                continue
            for (i, a, b), turn in sorted(zip(now, was), reverse=True):
                if turn:
                    lines[i] = lines[i][:a] + snake + "_lem" + lines[i][b:]
        if "\n".join(lines) != new:
            open(f, "w", encoding="utf-8").write("\n".join(lines))


if __name__ == "__main__":
    main()
