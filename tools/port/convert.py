#!/usr/bin/env python3
"""Turns proofs of a crate from the older form, one Proof.antt with a term for each need, to Invariants.antt and Answers.antt.

usage: tools/port/convert.py NAME..     in the repository; the crates that NAME builds on are proved

The names of goals and steps are those that `rt check --generated FOLDER --old-names` lists. Answers that only search are left out: the check tries that by itself.
It prints each word that it could not turn. rt check decides.
"""
import json, os, re, shutil, subprocess, sys, tempfile

SIG = re.compile(r"^(?:abbrev |pub |unfoldable )*([^\s:(){}]+) :(.*)$", re.S)
PATHS = re.compile(r"(?<![\w.'₀-])([A-Za-z_][\w'₀-₉-]*)((?:\.[A-Za-z0-9_'₀-₉-]+)+)")
PLAIN = re.compile(r"^\S+( c| κs)* = (search rules|omega arith)$")
GIVEN = re.compile(r"^(?:shared_)?(?:slice|vec|array)_known")


def same(name):
    return re.sub(r"^(overflow|nonzero|slice[-_]bounds|part)[-_]", "", re.sub(r"_lem$", "", name)).replace("_", "-").lower()


def groups(text):
    """The declarations of a file: (comment, name, lines), with name None for what declares none."""
    out, comment, current = [], [], None
    for line in text.split("\n"):
        if line.startswith("--"):
            if current is not None and current[2] and current[2][-1] != "":
                current[2].append(line)
            else:
                comment.append(line)
                current = None
            continue
        if line == "":
            if current is not None:
                current[2].append("")
            continue
        if line.startswith(" "):
            current[2].append(line)
            continue
        m = SIG.match(line)
        head = line.split(" ")[0]
        if current is not None and (head == current[1] or line.startswith("unfolding ")) and not m:
            current[2].append(line)
            continue
        if current is not None and not m and not line.startswith(("use ", "module ", "record ", "pub record ", "data ", "pub data ", "infix")):
            current[2].append(line)
            continue
        current = (comment, m.group(1) if m else None, [line])
        comment = []
        out.append(current)
    for g in out:
        while g[2] and g[2][-1] == "":
            g[2].pop()
    return out


class Turn:
    def __init__(self, table, fn, said):
        self.t, self.fn, self.said = table, fn, said
        self.parent = {p[0]: p[1] for p in table["places"]}
        self.step = {p[0]: p[2] for p in table["places"]}
        self.index = {p[0]: i for i, p in enumerate(table["places"])}
        self.typed = table["typed"]
        self.arms = table["arms"]

    def needs(self):
        return {same(a): b for a, b in self.t["needs"]}

    def resolve(self, place, parts):
        """Follows parts from a place: (place, []) or (None, new parts). Where the older form counted other steps, the step is found by its name."""
        parts, start = list(parts), place
        while parts and parts[0] == "before":
            place = self.parent.get(place) or place
            parts.pop(0)
        if not parts:
            return place, []
        parts[1:] = [p.replace("-", "_") for p in parts[1:]]
        parts[0] = {"well-formed": "well_formed"}.get(parts[0], parts[0])
        if parts[0] in ("args", "requires", "ranges", "lifetimes", "well_formed"):
            return None, parts

        def fits(p):
            own = self.step.get(p) or ["", ""]
            return own[0] and same(own[0]) == same(parts[0])

        def stem(name):
            return re.sub(r"-?\d+$", "", same(name))

        def near_fits(p):
            own = self.step.get(p) or ["", ""]
            return own[0] and stem(own[0]) == stem(parts[0])

        if not fits(place) and (GIVEN.match(parts[0].replace("-", "_")) or not near_fits(place)):
            chain, p = [], self.goal
            while p:
                chain.append(p)
                p = self.parent.get(p)
            depth = chain.index(place) if place in chain else 0
            near = sorted((abs(i - depth), i) for i, q in enumerate(chain) if fits(q)) or sorted((abs(i - depth), i) for i, q in enumerate(chain) if near_fits(q))
            if not near:
                return None, parts
            place = chain[near[0][1]]
        old, new = self.step[place]
        arm = self.arms[self.index[place]]
        if arm:
            best = None
            for field, step, prefix in arm[2]:
                if same(step) == same(old) and parts[1 : 1 + len(prefix)] == prefix and (best is None or len(prefix) > len(best[1])):
                    best = (field, prefix)
            if best:
                return None, [arm[0], best[0]] + parts[1 + len(best[1]) :]
        if GIVEN.match(old) and parts[1:2] == ["given"]:
            var = [v for v, s in self.typed[self.index[place]] if s == old]
            # what the type says of the value that the goal has; of an earlier value it is the step's own fact
            if var and [var[0], old] in [list(x) for x in self.typed[self.index[self.goal]]]:
                return None, ["type_inv", var[0]] + parts[2:]
        return None, [new] + parts[1:]

    def body(self, text, place, name="c"):
        env = {name: place}
        self.goal = place

        def fix(m):
            head, rest = m.group(1), m.group(2)[1:].split(".")
            if head in bound:
                return head + m.group(2).replace("-", "_")
            if head not in env:
                return m.group(0)
            p, parts = self.resolve(env[head], rest)
            if p is not None:
                return "\x00" + p + "\x00"
            if parts[0].endswith("?"):
                self.said.append(f"{self.fn}: {m.group(0)}")
            return "c." + ".".join(parts)

        bound = set()
        out, pos = [], 0
        lets = re.compile(r"let ([^\s:=()]+) = ([A-Za-z_][\w'₀-₉-]*(?:\.[A-Za-z0-9_'₀-₉-]+)*) in[ \n]*")
        while True:
            m = lets.search(text, pos)
            if not m:
                break
            out.append(PATHS.sub(fix, text[pos : m.start()]))
            path = m.group(2)
            head = path.split(".")[0]
            gone = False
            if head in env:
                p, parts = self.resolve(env[head], path.split(".")[1:])
                if p is not None:
                    env[m.group(1)] = p
                    gone = True
                else:
                    out.append(f"let {m.group(1)} = c.{'.'.join(parts)} in" + m.group(0)[m.group(0).rindex(" in") + 3 :])
                    env.pop(m.group(1), None)
                    bound.add(m.group(1))
            else:
                env.pop(m.group(1), None)
                out.append(m.group(0))
            pos = m.end()
            _ = gone
        out.append(PATHS.sub(fix, text[pos:]))
        new = "".join(out)
        calls = {(p[3] or "").split("::")[-1] for p in self.t["places"]}

        def unnot(m):
            name = re.sub(r"-\d+$", "", m.group(2).split("if-not-")[1].split(".")[0])
            if name not in calls and re.search(r"!" + name + r"\.\w+\b(?!\()", self.source):
                return m.group(0)
            return ("(" if m.group(0)[0] == "(" and not m.group(3) else "") + m.group(2) + (")" if m.group(3) and m.group(0)[0] != "(" else "")

        new = re.sub(r"\(?\bnot-(true|false) _ (c\.if-not-[^\s.]+\.\1)(\))?", unnot, new)
        for q in re.findall("\x00([^\x00]*)\x00", new):
            self.said.append(f"{self.fn}: a place {q} is passed on")
        return new.replace("\x00", "")


def words_used(name, text):
    return re.search(r"(?<![\w'₀-₉◌-])" + re.escape(name) + r"(?![\w'₀-₉-])", text) is not None


def imports(uses, text):
    """Of use lines those names that text uses."""
    out = []
    for u in uses:
        m = re.match(r"use ([^{\s]+)\.\{(.*)\}$", u)
        if not m:
            alias = re.match(r"use (\S+?)(?: as (\S+))?$", u)
            n = alias.group(2) or alias.group(1).split(".")[-1]
            if words_used(n, text):
                out.append(u)
            continue
        keep = []
        for w in m.group(2).split(", "):
            n = w.split(" as ")[-1].strip()
            if "◌" in n:
                op = n.strip("◌")
                core = [p for p in n.split("◌") if p]
                if all(p in text for p in core):
                    keep.append(w)
            elif words_used(n, text):
                keep.append(w)
        if keep:
            out.append(f"use {m.group(1)}.{{{', '.join(keep)}}}")
    return out


def plain_names(text):
    """Names of the file's own, in snake case: its helpers and the fields of its records, but for what the older form named."""
    own = set()
    for line in text.split("\n"):
        m = re.match(r"(?: *)(?:abbrev |pub |unfoldable )*([^\s:(){}=]+) :(.*)$", line)
        if m and not line.startswith(("use ", "--")) and "tie." not in line and "statement M" not in line:
            own.add(m.group(1))
    turned = {}
    for n in own:
        new = re.sub(r"(?<=[a-z0-9])([A-Z])", lambda m: "_" + m.group(1).lower(), n).replace("-", "_")
        if new != n and re.match(r"[a-z]", n) and not words_used(new, text):
            turned[n] = new
    if not turned:
        return text
    word = re.compile(r"(?<![\w'₀-₉-])(" + "|".join(re.escape(n) for n in sorted(turned, key=len, reverse=True)) + r")(?![\w'₀-₉-])")
    return "\n".join(l if l.startswith(("use ", "--")) or "tie." in l else word.sub(lambda m: turned[m.group(1)], l) for l in text.split("\n"))


def turn_file(crate, folder, path, table, said, root):
    fn = path[len("proofs/") : -len("/Proof.antt")]
    text = open(os.path.join(root, "crates", crate, path), encoding="utf-8").read()
    if " Tie as tie" not in text and ".Tie as tie" not in text:
        said.append(f"{fn}: by hand")
        return False
    t = Turn(table, fn, said)
    src = os.path.join(root, "crates", crate, "src")
    t.source = "\n".join(open(os.path.join(src, f), encoding="utf-8").read() for f in sorted(os.listdir(src)) if f.endswith(".rt"))
    text = plain_names(text)
    gs = groups(text)
    uses = [g[2][0] for g in gs if g[2][0].startswith("use ")]
    head = []
    for g in gs:
        if g[2][0].startswith("use "):
            head = g[0]
            break
    uses = [u for u in uses if not re.search(r"proofs\.\S+\.(Statement\.\{statement\}|Tie as tie)$", u) and "Statement.{statement}" not in u and "Tie as tie" not in u and "borrow.Author.Rules.{rules}" not in u]
    needs = t.needs()
    at = {n[1]: a[0] for n, a in zip(table["needs"], table["asked_at"])}
    loops = {}
    for per in table["loops"]:
        pass
    names, live = [], []
    for k in range(0, len(table["loops"])):
        names.append(table["loops"][k][0])
        live.append(table["loops"][k][1])
    inv, ans, helpers = [], [], []
    for comment, name, lines in gs:
        if lines[0].startswith("use "):
            continue
        whole = "\n".join(lines)
        if name is None:
            helpers.append((comment, whole))
            continue
        sig = SIG.match(whole)
        typ = sig.group(2)
        if "statement M" in typ:
            continue
        m = re.search(r"tie\.(invariant|decreases)-(\S+)", typ)
        if m:
            kind, loop = m.group(1), m.group(2)
            k = next((i for i, n in enumerate(names) if same(n[0]) == same(loop)), None)
            if k is None:
                said.append(f"{fn}: no loop {loop}")
                continue
            eq = whole[whole.index("\n") + 1 :] if "\n" in whole else ""
            while eq.startswith(" "):
                eq = eq[eq.index("\n") + 1 :]
            mid = ""
            while eq.startswith("unfolding"):
                mid += eq[: eq.index("\n") + 1]
                eq = eq[eq.index("\n") + 1 :]
            lhs, rhs = eq.split(" = ", 1) if " = " in eq.split("\n")[0] else eq.split(" =\n", 1)
            params = lhs.split()[1:]
            changed = table["changed"][k]
            vs = live[k]
            moved = [v for v, ch in zip(vs, changed) if ch]
            sub = {}
            if len(params) == len(vs) + len(moved):
                for p, v, ch in zip(params, vs, changed):
                    sub[p] = f"l.initial.{v}" if ch else f"l.{v}"
                for p, v in zip(params[len(vs) :], moved):
                    sub[p] = f"l.{v}"
            else:
                said.append(f"{fn}: loop {loop} has live {vs} changed {moved}, and the parameters are {params}")
            for p in list(sub):
                if p == "_":
                    del sub[p]

            def put(mm):
                return sub.get(mm.group(0), mm.group(0)) if mm.group(0) != "data" else sub.get("«data»", "data")

            def puts(s):
                s = s.replace("«data»", "data")
                return re.sub(r"(?<![\w'₀-₉.-])[A-Za-z_κμ][\w'₀-₉-]*", put, s)

            new = f"{kind}-{names[k][1]}"
            inv.append("\n".join(comment + [f"abbrev pub {new} : goal.{new}", (mid + f"{new} l = {puts(rhs)}" if " = " in eq.split(chr(10))[0] else mid + f"{new} l =\n{puts(rhs)}")]))
            continue
        m = re.search(r"tie\.Need-(\S+)", typ)
        if m:
            new = needs.get(same(m.group(1)))
            if new is None:
                said.append(f"{fn}: no goal {m.group(1)}: {name}")
                continue
            eqs = whole[whole.index("\n") + 1 :]
            while eqs.startswith(" "):
                eqs = eqs[eqs.index("\n") + 1 :]
            if PLAIN.match(eqs):
                continue
            place = at[new]
            done = []
            for l in eqs.split("\n"):
                done.append(l)
            eqs = "\n".join(done)
            mid = ""
            while eqs.startswith("unfolding"):
                mid += eqs[: eqs.index("\n") + 1]
                eqs = eqs[eqs.index("\n") + 1 :]
            mm = re.match(r"(\S+)((?: [^\s=]+)*) =(\s)(.*)$", eqs, re.S)
            if mm is None:
                said.append(f"{fn}: {new} has no plain equation: {eqs[:80]!r}")
                continue
            params = [p for p in mm.group(2).split() if p not in ("κs",)]
            if params not in (["c"], ["_"]):
                said.append(f"{fn}: {new} has parameters {params}")
            body = t.body(mm.group(4), place)
            body = re.sub(r"(?<![\w'₀-₉-])data(?![\w'₀-₉-])", "data", body)
            if re.search(r"OneOf \(\d+ ∷ \d+", text) or "not_here" in text:
                body = re.sub(r"c\.in_default\S*-own\.keys\d+", lambda k: f"(opened {k.group(0)})", body)
            if words_used("κs", body):
                said.append(f"{fn}: {new} uses κs")
            if not mid and re.fullmatch(r"\s*(?:search|omega) \(?(?:rules|arith)\)?\s*", body):
                continue
            ans.append("\n".join(comment + [f"pub {new} : goal.{new}", mid + f"{new} c =" + mm.group(3) + body]))
            continue
        helpers.append((comment, whole))
    mod = "Rattle." + crate + ".proofs." + fn.replace("/", ".")
    folder = os.path.join(root, "crates", crate, os.path.dirname(path))
    texts = ["\n".join(c + [w]) for c, w in helpers]
    inv_text = "\n\n".join(inv)
    # helpers that the invariants use come with them; the answers take them from there
    need = set()
    more = True
    body_of = inv_text
    while inv and more:
        more = False
        for i, (c, w) in enumerate(helpers):
            m = SIG.match(w)
            n = m.group(1) if m else (re.match(r"(?:pub )?record ([^\s:(]+)", w).group(1) if re.match(r"(?:pub )?record ", w) else None)
            if i not in need and n and words_used(n, body_of):
                need.add(i)
                body_of += "\n" + w
                more = True
    in_inv = [texts[i] for i in sorted(need)]
    in_ans = [texts[i] for i in range(len(texts)) if i not in need]
    if inv:
        shown = []
        for i in sorted(need):
            c, w = helpers[i]
            first = w.split("\n")[0]
            if not re.match(r"(abbrev |unfoldable )*pub ", first) and not first.startswith("pub "):
                w = re.sub(r"^((?:abbrev |unfoldable )*)", r"\1pub ", w, 1) if not first.startswith("record") else "pub " + w
            if w.startswith("pub record "):
                w = re.sub(r"(?m)^  (?!pub )(?=[^\s:]+ :)", "  pub ", w)
            shown.append("\n".join(c + [w]))
        body_all = "\n\n".join(shown + inv)
        lines = head + imports(uses, body_all) + [f"use {mod}.Given as goal"]
        open(os.path.join(folder, "Invariants.antt"), "w", encoding="utf-8").write("\n".join(lines) + "\n\n" + body_all + "\n")
    taken = []
    for i in sorted(need):
        m = SIG.match(helpers[i][1])
        n = m.group(1) if m else re.match(r"(?:pub )?record ([^\s:(]+)", helpers[i][1]).group(1)
        taken.append(n)
    if ans:
        body_all = "\n\n".join(in_ans + ans)
        ours = [n for n in taken if words_used(n, body_all)]
        lines = (head if not inv else []) + imports(uses + ["use borrow.Author.Rules.{rules}", "use borrow.Enum.Refused.{opened}"], body_all)
        if ours:
            lines.append(f"use {mod}.Invariants.{{{', '.join(ours)}}}")
        lines.append(f"use {mod}.Goals as goal")
        open(os.path.join(folder, "Answers.antt"), "w", encoding="utf-8").write("\n".join(lines) + "\n\n" + body_all + "\n")
    elif in_ans:
        said.append(f"{fn}: helpers left out: {len(in_ans)}")
    os.remove(os.path.join(root, "crates", crate, path))
    return True


def main():
    root = os.getcwd()
    for crate in sys.argv[1:]:
        where = os.path.join(root, "crates", crate)
        out = tempfile.mkdtemp()
        r = subprocess.run(["rt", "check", "--generated", os.path.join(out, "n"), "--old-names"], cwd=where, stdout=subprocess.PIPE, stderr=subprocess.STDOUT, text=True)
        f = os.path.join(out, "n", "names.json")
        if not os.path.exists(f):
            print(crate, "no names: a crate below is not proved")
            print(r.stdout[-2000:], file=sys.stderr)
            sys.exit(1)
        names = json.load(open(f))
        said = []
        done = 0
        for folder, dirs, files in sorted(os.walk(os.path.join(where, "proofs"))):
            if "Proof.antt" not in files:
                continue
            path = os.path.relpath(os.path.join(folder, "Proof.antt"), where)
            fn = path[len("proofs/") : -len("/Proof.antt")]
            key = f"Rattle-{crate}-proofs." + fn.replace("/", ".") + ".Lts"
            if key not in names:
                said.append(f"{fn}: not in names.json")
                continue
            done += turn_file(crate, folder, path, names[key], said, root)
        shutil.rmtree(out)
        print(f"{crate}: {done} turned")
        for s in said:
            print("  " + s)


if __name__ == "__main__":
    main()
