#!/usr/bin/env bash
# One crate brought over, as far as scripts go: the tactics' line, the converted proofs, the layout; then a check, whose errors are left to the hand.
# usage: tools/port/crate.sh NAME, at the top
set -uo pipefail
c=$1
said=$(mktemp)
trap 'rm -f "$said"' EXIT
for f in crates/$c/src/lib.rt crates/$c/src/main.rt; do
  [ -f "$f" ] && ! grep -q 'tactic(auto)' "$f" && python3 - "$f" <<'P'
import sys
f=sys.argv[1]; ls=open(f).read().split("\n"); i=0
while i<len(ls) and ls[i].startswith("//"): i+=1
ls.insert(i,"#![tactic(auto)]"); open(f,"w").write("\n".join(ls))
P
done
(cd "crates/$c" && rt fmt >/dev/null)
if [ -n "$(find crates/$c/proofs -name Proof.antt 2>/dev/null | head -1)" ]; then
  python3 tools/port/convert.py "$c" >"$said" 2>&1 || { echo "$c: below first"; exit 1; }
  grep -v "no goal slice-bounds" "$said" | cut -c1-300 | head -${3:-40}
fi
cd "crates/$c" && rt check >"$said" 2>&1
grep -E "^fn .*(not proved|no proof|could not)|^logic=|^rattle:|error" "$said" | cut -c1-300 | tail -${2:-60}
