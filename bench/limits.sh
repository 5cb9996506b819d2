#!/bin/sh
# Times `check` on tasks at the limits, written by limits.py, with one worker: seconds, seconds of
# the processor, KiB of memory, how many lines and bytes the proof has, and the answer. A check that
# has no answer after SECONDS is ended. Run it at the top, after make.
#
# bench/limits.sh [PROGRAM [NAMES [SECONDS]]]
set -eu
program=${1:-bin/safemerge}
straight="names holes all wide nodes chain"
edges="plan plan_above deep deep_above facts_above facts"
names=${2:-$straight $edges loop arrays}
limit=${3:-120}
here=$(dirname "$0")
place=$(mktemp -d)
trap 'rm -rf "$place"' EXIT

form='%-11s %8s %9s %8s %8s %9s  %s\n'
printf "$form" task seconds processor KiB lines bytes answer
for name in $names; do
  python3 "$here/limits.py" "$name" > "$place/task"
  rm -f "$place/found"
  status=0
  /usr/bin/time -q -f '%e %U %M' -o "$place/cost" timeout "$limit" \
    "$program" check "$place/task" "$place/found" --workers 1 > "$place/printed" || status=$?
  [ $status -ne 124 ] || echo "none in $limit seconds" > "$place/printed"
  touch "$place/found"
  read -r seconds processor memory < "$place/cost"
  printf "$form" "$name" "$seconds" "$processor" "$memory" "$(wc -l < "$place/found")" \
    "$(wc -c < "$place/found")" "$(head -n 1 "$place/printed")"
done
