#!/bin/bash
# usage: compare.sh BENCH N
#
# Gives sheets of seeds 1 to N to the plain program and to BENCH and compares
# their answers byte for byte; then times both on one sheet of 100,000 lines.
set -u
if [ $# -ne 2 ]; then
    echo "usage: $0 BENCH N" >&2
    exit 2
fi
bench=$(realpath "$1")
seeds=$2
cd "$(dirname "$0")" || exit 2

plain=/tmp/plain
if [ ! -x "$plain" ] || [ plain.rs -nt "$plain" ]; then
    rustc -O -o "$plain" plain.rs || exit 2
fi

work=$(mktemp -d) || exit 2
trap 'rm -rf "$work"' EXIT

# Shows the first answer line that differs, and the line of the sheet it
# answers: every answer ends with one line that is not a "send" line.
show_difference() {
    python3 - "$work" <<'PYTHON'
import itertools, sys
work = sys.argv[1]
def lines(name):
    return open(f"{work}/{name}", "rb").read().split(b"\n")
sheet, plain, bench = lines("sheet"), lines("plain"), lines("bench")
answered = 0
for number, (ours, theirs) in enumerate(itertools.zip_longest(plain, bench), 1):
    if ours != theirs:
        print(f"  answer line {number}, sheet line {answered + 1}")
        print("  sheet:", sheet[answered] if answered < len(sheet) else "(after its end)")
        print("  plain:", ours)
        print("  bench:", theirs)
        break
    answered += not ours.startswith(b"send ")
PYTHON
}

compare() {
    "$plain" <"$work/sheet" >"$work/plain" || { echo "$1: plain ended with $?"; return 1; }
    "$bench" <"$work/sheet" >"$work/bench" || { echo "$1: bench ended with $?"; return 1; }
    cmp -s "$work/plain" "$work/bench" && return 0
    echo "$1: answers differ"
    show_difference
    return 1
}

different=0
for ((seed = 1; seed <= seeds; seed++)); do
    # Now and then none, one or a handful of lines; every third sheet is wild.
    case $((seed % 10)) in
        0) lines=$((seed / 10 % 4)) ;;
        5) lines=20000 ;;
        *) lines=2000 ;;
    esac
    wild=
    [ $((seed % 3)) -eq 0 ] && wild=--wild
    python3 gen.py "$seed" "$lines" $wild >"$work/sheet" || exit 2
    compare "gen.py $seed $lines $wild" || different=$((different + 1))
done
echo "$seeds sheets, $different different"

python3 gen.py 1 100000 >"$work/sheet" || exit 2
compare "gen.py 1 100000" || different=$((different + 1))
TIMEFORMAT='%3R s real, %3U s user, %3S s system'
for name in plain bench; do
    for run in 1 2 3; do
        echo -n "100,000 lines, $name: "
        { time "${!name}" <"$work/sheet" >/dev/null; } 2>&1
    done
done
[ "$different" -eq 0 ]
