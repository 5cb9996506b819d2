#!/bin/sh
# Verifies proof files of three sizes each, made by proofs.py, and shows seconds, memory and the answer; for each file
# also the seconds of `wc -l` on it. Run it at the top, after make.
#
# bench/verify.sh [PROGRAM [KIND]]
set -eu
program=${1:-bin/safemerge}
only=${2:-}
here=$(dirname "$0")
place=$(mktemp -d)
trap 'rm -rf "$place"' EXIT

measure() { # the rest of the words is run
  /usr/bin/time -q -f '%U %S %M' -o "$place/cost" "$@" > "$place/printed" || true
}

printf '%-9s %9s %10s %8s %8s %8s  %s\n' kind size bytes seconds KiB 'wc -l' answer
while read -r kind sizes; do
  [ -z "$only" ] || [ "$only" = "$kind" ] || continue
  for size in $sizes; do
    python3 "$here/proofs.py" "$kind" "$size" "$place"
    measure wc -l "$place/proof"
    read -r user system memory < "$place/cost"
    count=$(awk "BEGIN { print $user + $system }")
    measure "$program" verify "$place/task" "$place/proof"
    read -r user system memory < "$place/cost"
    printf '%-9s %9d %10d %8s %8s %8s  %s\n' "$kind" "$size" "$(wc -c < "$place/proof")" \
      "$(awk "BEGIN { print $user + $system }")" "$memory" "$count" "$(cat "$place/printed")"
  done
done <<KINDS
lines 10000 100000 1000000
forks 10 100 1000
loops 1 10 100
tree 9 12 15 18
steps 99 990 9990
long 2000000 20000000 200000000
nested 15 30 60
shared 30 60 120
branches 40 400 4000
KINDS
