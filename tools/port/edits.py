#!/usr/bin/env python3
"""Brings crates/*/must-fail/*.edit to today's spelling.

usage: tools/port/edits.py COMMIT [--say]     in the repository; COMMIT has the edits, and the files that they change, in the older spelling

Each edit is taken from COMMIT, and its file is rewritten, so a second run does no harm. An old text that stands once in today's file stays. Else the
words and projections of both texts are turned: by the words that the repository's own changed lines show, laid side by side. What the rules do not
reach stands in BY_HAND, under crate/edit and the number of the pair. --say prints each pair that changed beside COMMIT's, and the line that it stands in.
"""
import collections, difflib, glob, os, re, subprocess, sys

MOVED = {("contracts", "specs/Contracts.antt"): "specs/Promises.antt", ("copy_contracts", "specs/Contracts.antt"): "specs/Promises.antt"}
TOKEN = re.compile(r"[^\s(){}\[\],;.:\"`«»⌜⌝]+|\.|[(){}\[\],;:\"]")
WORD = re.compile(r"[^\s(){}\[\],;.:\"`«»⌜⌝]+")
BY_HAND = {
    "abi_copy/copy_leaves_the_target/0": ("        target.new", "        target.old"),
    "call/call_leaves_the_log/0": ("        (lent log.new write_position.new scratch.new", "        (lent log.old write_position.new scratch.new"),
    "call/call_of_the_lengths/0": ("(call_asked request name.now run.now lens.now)", "(call_asked request name.now lens.now lens.now)"),
    "call_apply/apply_reads_the_names/0": ("(result ≡ refusal_by scratch.now doing", "(result ≡ refusal_by names.old doing"),
    "call_effect/item_step_at_the_last_number/0": ("if MAX_POSITION <= position {", "if MAX_POSITION <= position / 2 {"),
    "contracts/call_leaves_the_log/0": ("  pub log_left : l'.log ≡ (call_of (state_of l) k).state.log", "  pub log_left : l'.log ≡ l.log"),
    "copy/copy_leaves_the_scratch/0": ("        scratch.new }", "        scratch.old }"),
    "drive_commands/definition_big_endian_position/0": ("number_in xs = le (take 8 (drop 8 xs))", "number_in xs = le (Rattle.std.specs.Prelude.reverse (take 8 (drop 8 xs)))"),
    "mem_check/arranged_names_twice/0": ("arranged (memory names.now payloads.now entries.now table.now)", "arranged (memory names.now names.now entries.now table.now)"),
    "mem_check_parts/last_position_taken/0": ("    if MAX_POSITION <= position {", "    if MAX_POSITION <= position / 2 {"),
    "mem_entries/entry_at_says_the_first/0": ("get_or entries.now i blank", "get_or entries.now 0 blank"),
    "mem_entries/move_down_moves_up/0": ("≡ moved_down entries.old to from queue", "≡ moved_down entries.old from to queue"),
    "mem_entries/move_down_stores_nothing/0": ("≡ moved_down entries.old to from queue", "≡ entries.old"),
    "mem_entries/store_entry_leaves_it/0": ("≡ set entries.old i e", "≡ entries.old"),
    "mem_sweep/sweep_keeps_none/0": ("SweptAs (sweep_to change queue entries.old payloads.old count)", "SweptAs (sweep_to change queue entries.old payloads.old 0)"),
    "question/range_hands_back_all_payloads/0": ("        result.now }", "        payloads.now }"),
    "shift_lines/every_line_from_the_start/0": ("at = put_answer(out, at, answer);", "at = put_answer(out, at - at, answer);"),
    "slices/compare_shorter_is_same/0": ("if i < b.len() {", "if i < b.len() - b.len() {"),
    "planes/planes_fit_width_65/0": ("if width > 64 {", "if width - 1 > 64 {"),
    "read_step/truncate_of_a_missing_queue_at_the_last_number/0": ("if MAX_POSITION <= position {", "if MAX_POSITION <= position / 2 {"),
    "readout_text/every_card_is_refused/0": ("if input.len() < Reader::BLOCK_NUM_BYTES {", "if input.len() / 3 < Reader::BLOCK_NUM_BYTES {"),
    "replay/read_leaves_the_reader/0": ("        reader.new }", "        reader.old }"),
    "replay/replay_leaves_the_table/0": ("        (memory names.new payloads.new entries.new table.new) }", "        (memory names.new payloads.new entries.new table.old) }"),
}


def git(*words):
    return subprocess.run(["git", *words], capture_output=True, text=True, check=True).stdout


def pairs(text):
    """The pairs of an edit: [(file, old, new)], and the file's other lines are refused."""
    name, old, out = None, None, []
    for line in text.splitlines():
        key, _, rest = line.partition(": ")
        if key == "file":
            name = rest
        elif key == "old":
            old = rest
        elif key == "new" and old is not None:
            out.append((name, old, rest))
            old = None
        else:
            raise SystemExit("not an edit: " + line)
    return out


def plain(line):
    return re.sub(r"[\s⌜⌝_.\-]+", "", line.lower())


def tight(text):
    """Primes and the middle dot as today's, and projections: `(m .queues)` is `m.queues`, `(f x .answer)` is `(f x).answer`."""
    text = text.replace("′", "'").replace("Rattle·", "Rattle.").replace("⌜ ", "").replace(" ⌝", "")
    one = re.compile(r"\(([^\s()]+) \.([a-z][\w'-]*)\)")
    while one.search(text):
        text = one.sub(r"\1.\2", text)
    text = re.sub(r"\(((?:[\w'. -]|\([\w'. -]*\))+?)((?: \.[a-z][\w'-]*)+)\)", lambda m: m.group(0) if " - " in m.group(1) else f"({m.group(1)})" + m.group(2).replace(" ", ""), text)
    return re.sub(r"(?<=[\w')]) \.(?=[a-z])", ".", text)


def words_of(commit):
    """The words that changed, from the lines of COMMIT and of today laid side by side."""
    seen = collections.defaultdict(collections.Counter)
    for path in git("ls-tree", "-r", "--name-only", commit, "crates").splitlines():
        part = path.split("/")
        if not path.endswith((".antt", ".rt")) or part[2] not in ("specs", "src"):
            continue
        now = os.path.join(*part[:2], MOVED.get((part[1], "/".join(part[2:])), "/".join(part[2:])))
        if not os.path.exists(now):
            continue
        a = git("show", f"{commit}:{path}").splitlines()
        b = open(now, encoding="utf-8").read().splitlines()
        for tag, i1, i2, j1, j2 in difflib.SequenceMatcher(None, [plain(x) for x in a], [plain(x) for x in b], autojunk=False).get_opcodes():
            if tag not in ("equal", "replace") or i2 - i1 != j2 - j1:
                continue
            for x, y in zip(a[i1:i2], b[j1:j2]):
                xs, ys = TOKEN.findall(tight(x)), TOKEN.findall(y)
                if len(xs) == len(ys) and all(plain(u) == plain(v) or WORD.fullmatch(u) for u, v in zip(xs, ys)):
                    for u, v in zip(xs, ys):
                        if WORD.fullmatch(u):
                            seen[u][v] += 1
    return {u: c.most_common(1)[0][0] for u, c in seen.items() if c.most_common(1)[0][0] != u}


def turn(text, words):
    return WORD.sub(lambda m: words.get(m.group(0), m.group(0)), tight(text))


def main():
    if len(sys.argv) < 2:
        raise SystemExit(__doc__)
    commit, say = sys.argv[1], "--say" in sys.argv
    words = words_of(commit)
    kept = turned = left = 0
    for path in git("ls-tree", "-r", "--name-only", commit, "crates").splitlines():
        if not path.endswith(".edit"):
            continue
        crate, edit = path.split("/")[1], path.split("/")[-1][: -len(".edit")]
        before = pairs(git("show", f"{commit}:{path}"))
        texts, lines, last = {}, [], None
        for n, (name, old, new) in enumerate(before):
            now = MOVED.get((crate, name), name)
            if now not in texts:
                texts[now] = open(os.path.join("crates", crate, now), encoding="utf-8").read()
            o, w = old, new
            if f"{crate}/{edit}/{n}" in BY_HAND:
                o, w = BY_HAND[f"{crate}/{edit}/{n}"]
            elif texts[now].count(old) != 1:
                o, w = turn(old, words), turn(new, words)
            count = texts[now].count(o)
            if count != 1 or o == w:
                left += 1
                print(f"left: {crate}/{edit}/{n} {now}: stands {count} times\n  -| {old}\n  +| {new}\n  o| {o}\n  w| {w}")
                continue
            kept, turned = kept + (o == old), turned + (o != old)
            if say and (o, w) != (old, new):
                at = texts[now].index(o)
                line = texts[now][texts[now].rfind("\n", 0, at) + 1 : (texts[now] + "\n").index("\n", at)]
                print(f"{crate}/{edit}/{n} {now}\n  -| {old}\n  o| {o}\n  +| {new}\n  w| {w}\n  T| {line}")
            if now != last:
                lines.append("file: " + now)
                last = now
            lines += ["old: " + o, "new: " + w]
            texts[now] = texts[now].replace(o, w)
        if len(lines) >= 1 + 2 * len(before):
            with open(path, "w", encoding="utf-8") as f:
                f.write("\n".join(lines) + "\n")
    print(f"{kept} pairs as they stood, {turned} turned, {left} left")


if __name__ == "__main__":
    main()
