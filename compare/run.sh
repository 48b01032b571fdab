#!/usr/bin/env bash
# Usage: run.sh SEED COUNT [PROGRAM]
# Random sentences for this program and another one that reads one sentence's words and prints one line.
set -euo pipefail

here=$(cd "$(dirname "$0")" && pwd)
if [ $# -lt 2 ] || [ $# -gt 3 ]; then
    echo "usage: run.sh SEED COUNT [PROGRAM]" >&2
    exit 2
fi
seed=$1
count=$2
program=${3:-$here/../crates/judge/out/judge}
[ -x "$program" ] || { echo "no program at $program" >&2; exit 2; }

cargo build --release --quiet --manifest-path "$here/Cargo.toml"
compare=${CARGO_TARGET_DIR:-$here/target}/release/compare
scratch=$(mktemp -d)
trap 'rm -rf "$scratch"' EXIT

"$compare" random "$seed" "$count" > "$scratch/sentences"

start=$EPOCHREALTIME
"$compare" answer < "$scratch/sentences" > "$scratch/ours"
middle=$EPOCHREALTIME
while IFS= read -r sentence; do
    # Whatever the program prints becomes one line; how it exits counts only if it prints nothing.
    printed=$(printf '%s\n' "$sentence" | "$program" 2>/dev/null) || printed=${printed:-exit $?}
    printf '%s\n' "${printed//$'\n'/ / }"
done < "$scratch/sentences" > "$scratch/theirs"
end=$EPOCHREALTIME

paste -d '|' "$scratch/ours" "$scratch/theirs" "$scratch/sentences" | awk -F '|' '
    { total++; answers[$1]++ }
    $2 == "not decided yet" && $1 != "no 3" && $3 !~ /^0 / { undecided++; next }
    $1 != $2 { different++; print "DIFFERENT: compare says " $1 ", the program says " $2 ": " $3; next }
    { same++ }
    END {
        printf "sentences %d: same %d, not decided yet %d, different %d\n", total, same, undecided, different
        printf "compare says: holds %d, fails %d, given up %d, no 3 %d\n", \
            answers["holds"], answers["fails"], answers["given up"], answers["no 3"]
        exit different > 0
    }' && status=0 || status=$?
awk -v a="$start" -v b="$middle" -v c="$end" 'BEGIN {
    printf "seconds: compare %.3f (one process), the program %.3f (a process for each sentence)\n", b - a, c - b }'
exit $status
