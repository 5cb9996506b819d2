#!/bin/sh
# Verifies and trims proof files of up to 16 MiB, made by proofs.py, and the proofs that `check` writes of loops round 2
# to 48 holes, made by loops.py. Shows for each the bytes, the lines of PROOF and of OUT, the seconds and KiB of `verify`
# and of `trim`, and how many times longer `trim` takes. Run it at the top, after make.
#
# bench/trim.sh [PROGRAM [KIND]]
set -eu
program=${1:-bin/safemerge}
only=${2:-}
here=$(dirname "$0")
place=$(mktemp -d)
trap 'rm -rf "$place"' EXIT

measure() { # the rest of the words is run
  /usr/bin/time -q -f '%U %S %M' -o "$place/cost" "$@" > "$place/printed" || true
  awk '{ print $1 + $2, $3 }' "$place/cost"
}

row() { # the kind, the size
  verified=$(measure "$program" verify "$place/task" "$place/proof")
  accepted=$(cat "$place/printed")
  trimmed=$(measure "$program" trim "$place/task" "$place/proof" "$place/out")
  [ "$accepted" = Accepted ] && [ "$("$program" verify "$place/task" "$place/out")" = Accepted ] || echo "doesn't pass:"
  echo "$1 $2 $(wc -c < "$place/proof") $(cat "$place/printed") $verified $trimmed" | awk '{
    printf "%-9s %9d %10d %-9s %9d %9d %8.2f %8d %8.2f %8d %8.1f\n",
      $1, $2, $3, $4, $5, $6, $7, $8, $9, $10, $9 / ($7 > 0 ? $7 : 0.01) }'
}

printf '%-9s %9s %10s %-9s %9s %9s %8s %8s %8s %8s %8s\n' \
  kind size bytes answer before after verify KiB trim KiB times
while read -r kind sizes; do
  [ -z "$only" ] || [ "$only" = "$kind" ] || continue
  for size in $sizes; do
    if [ "$kind" = check ]; then
      python3 "$here/loops.py" "$size" > "$place/task"
      "$program" check "$place/task" "$place/proof" > "$place/printed"
    else
      python3 "$here/proofs.py" "$kind" "$size" "$place"
    fi
    row "$kind" "$size"
  done
done <<KINDS
lines 10000 100000 1000000
forks 10 100 1000
loops 1 10 100
tree 9 12 15
steps 99 990 9990
nested 15 30 60
shared 30 60 120
branches 40 400 4000
under 1000 100000 500000
check 2 4 8 16 24 48
KINDS
