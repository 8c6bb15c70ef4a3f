#!/usr/bin/env bash
# Proves a commit from nothing in a fresh clone, one crate after the other, and prints seconds of processor time for each crate and in all.
# Usage: tools/check_times.sh COMMIT [CRATE..]   (without names every crate of that commit's crates.txt; with names those and what they use)
set -euo pipefail
[ $# -ge 1 ] || { echo "usage: $0 COMMIT [CRATE..]" >&2; exit 2; }
commit=$1
shift
here=$(cd "$(dirname "$0")/.." && pwd)
clone=$(mktemp -d)
trap 'rm -rf "$clone"' EXIT
git clone -q "$here" "$clone/it"
cd "$clone/it"
git checkout -q "$commit"

# the crates in an order in which each comes after those it uses; the kit's own libraries are proved already
in_order() {
    python3 - "$@" <<'PY'
import sys
uses = {}
for line in open("crates.txt"):
    line = line.split("#")[0].strip()
    if line:
        name, rest = line.split(":")
        uses[name] = rest.split()
order = []
def visit(name):
    if name in uses and name not in order:
        for used in uses[name]:
            visit(used)
        order.append(name)
for name in sys.argv[1:] or uses:
    visit(name)
print(" ".join(order))
PY
}

TIMEFORMAT="%U %S"
all=0
for crate in $(in_order "$@"); do
    spent=$({ time (cd "crates/$crate" && rt check) >"$clone/log" 2>&1; } 2>&1) || { cat "$clone/log" >&2; echo "$crate is not proved" >&2; exit 1; }
    seconds=$(awk '{ printf "%.1f", $1 + $2 }' <<<"$spent")
    printf '%-24s %8s\n' "$crate" "$seconds"
    all=$(awk -v a="$all" -v b="$seconds" 'BEGIN { printf "%.1f", a + b }')
done
printf '%-24s %8s\n' "$(git rev-parse --short HEAD) in all" "$all"
