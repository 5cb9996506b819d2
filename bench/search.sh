#!/bin/sh
# Times `check` on one loop round 2 to 48 holes, written by loops.py, with 1 and 2 workers: seconds,
# seconds of the processor, KiB of memory, and how many lines and bytes the proof has. Then a
# made-up task of 190 holes, and the start of the program: a task without statements, checked 200
# times. Run it at the top, after make.
#
# bench/search.sh [PROGRAM [SIZES]]
set -eu
program=${1:-bin/safemerge}
sizes=${2:-2 4 6 12 24 48}
here=$(dirname "$0")
place=$(mktemp -d)
trap 'rm -rf "$place"' EXIT

# Runs the words; leaves what was printed, and the cost.
measure() {
  /usr/bin/time -q -f '%e %U %M' -o "$place/cost" "$@" > "$place/printed" || true
}

# A row for what was measured last.
row() {
  read -r seconds processor memory < "$place/cost"
  printf "$form" "$1" "$2" "$3" "$seconds" "$processor" "$memory" "$4" "$5" \
    "$(tail -n 1 "$place/printed")"
}

form='%-8s %5s %8s %8s %9s %8s %8s %9s  %s\n'
printf "$form" kind size workers seconds processor KiB lines bytes answer
for size in $sizes; do
  python3 "$here/loops.py" "$size" > "$place/task"
  for workers in 1 2; do
    rm -f "$place/found"
    measure "$program" check "$place/task" "$place/found" --workers $workers
    touch "$place/found"
    row loops "$size" $workers "$(wc -l < "$place/found")" "$(wc -c < "$place/found")"
  done
done
measure "$program" gen 1 190
row gen 190 1 - -

task='var x; output x; shared { } base { } variant_a { } variant_b { } candidate { }'
echo "$task" > "$place/task"
rounds=200
cat > "$place/rounds" <<'ROUNDS'
while [ "$3" -gt "${round:=0}" ]; do
  "$1" check "$2/task" "$2/found"
  round=$((round + 1))
done
ROUNDS
measure sh "$place/rounds" "$program" "$place" $rounds
read -r seconds processor memory < "$place/cost"
awk -v seconds="$seconds" -v rounds=$rounds -v memory="$memory" 'BEGIN {
  printf "start, each of %d: %.4f seconds, %d KiB\n", rounds, seconds / rounds, memory
}'
