#!/bin/sh
# week.sh [LINES [SEED]]: a made week through ./replay and ./report. The report's figures are compared with sums that tools/sums.py takes from replay's answers;
# processor seconds and lines a second of both programs are printed.
set -eu
cd "$(dirname "$0")/.."
lines=${1-1000000}
seed=${2-1}
work=$(mktemp -d)
trap 'rm -rf "$work"' EXIT

# run NAME: the program NAME on the week, its processor time
run() {
    ./"$1" "$work/$1.warm" >"$work/$1.out" # built here where that is still to do
    { time -p ./"$1" "$work/week" >"$work/$1.out"; } 2>"$work/$1.time"
    awk -v name="$1" -v n="$lines" '$1 != "real" { s += $2 } END { printf "%s: %.2f s, %.0f lines a second\n", name, s, n / s }' "$work/$1.time"
}

echo "a week of $lines lines, seed $seed"
tools/week.py "$seed" "$lines" >"$work/week"
head -n 1 "$work/week" | tee "$work/replay.warm" >"$work/report.warm"
run replay
run report
tools/sums.py "$work/week" "$work/replay.out" >"$work/sums"
cat "$work/report.out"
if ! diff "$work/sums" "$work/report.out"; then
    echo "week.sh: the report differs from the sums of replay's answers" >&2
    exit 1
fi
echo "the same as the sums of replay's answers"
