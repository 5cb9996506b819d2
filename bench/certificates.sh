#!/bin/sh
# Puts many terms into a table, and checks certificates of many lines: equations that are chained, sums of linear forms
# of 3 parts without one of them, and a balanced tree of splits. Of each it shows three sizes, with seconds, how many
# go in a second, and KiB of memory. The program makes what is measured by itself, so reading isn't measured; small
# sizes run several times. Run it at the top, after `rt run` in crates/calls.
#
# bench/certificates.sh [PROGRAM]
set -eu
program=${1:-crates/calls/out/calls}
place=$(mktemp -d)
trap 'rm -rf "$place"' EXIT

# The commands that make and check one certificate of a kind and a size, or put terms in.
commands() {
  case $1 in
    intern) printf 'table n\nt lit 5\nintern %d\n' "$2" ;;
    chain) printf 'table\nchain %d\n' "$2" ;;
    sums) printf 'table n n n\nsums %d\n' "$2" ;;
    balanced) printf 'table n\nt start 0\nfact no\nbalanced %d\n' "$2" ;;
  esac
}

# A size in the given number of rounds.
measure() {
  kind=$1 size=$2 rounds=$3 wanted=closed
  [ "$kind" = intern ] && wanted=$((size + 1))
  round=0
  while [ $round -lt "$rounds" ]; do
    commands "$kind" "$size"
    round=$((round + 1))
  done > "$place/commands"
  /usr/bin/time -f '%e %M' -o "$place/cost" "$program" < "$place/commands" > "$place/printed"
  [ "$(grep -c -x "$wanted" "$place/printed")" = "$rounds" ] || { cat "$place/printed"; exit 1; }
  read -r seconds memory < "$place/cost"
  awk -v kind="$kind" -v size="$size" -v rounds="$rounds" -v seconds="$seconds" -v memory="$memory" 'BEGIN {
    if (seconds == 0) seconds = 0.005
    each = seconds / rounds
    printf "%-9s %8d %10.5f %10d %8d\n", kind, size, each, size / each, memory
  }'
}

printf '%-9s %8s %10s %10s %8s\n' kind size seconds each_s KiB
measure intern 10000 100
measure intern 100000 10
measure intern 1000000 3
for kind in chain sums; do
  measure $kind 1000 300
  measure $kind 10000 30
  measure $kind 100000 3
done
measure balanced 1000 160
measure balanced 4000 40
measure balanced 16000 10
