#!/bin/sh
# Answers obligations of 100, 1,000 and 10,000 facts, written by obligations.py, and such as are split 1,000 times, and shows
# seconds and KiB of memory, beside the seconds of z3 and of cvc5 where these are installed, one process each. Then it
# answers 20,000 random ones, written and judged by random_obligations.py. Run it at the top, after `rt run` in crates/calls.
#
# bench/obligations.sh [PROGRAM [SIZES]]
set -eu
program=${1:-crates/calls/out/calls}
sizes=${2:-100 1000 10000}
here=$(dirname "$0")
place=$(mktemp -d)
trap 'rm -rf "$place"' EXIT

# The seconds of another solver, none where it isn't installed.
other() {
  command -v "$1" > /dev/null || { echo -; return; }
  /usr/bin/time -q -f %e -o "$place/cost" timeout 600 "$1" "$place/obligation.smt2" > "$place/said" || true
  grep -q -x unsat "$place/said" && cat "$place/cost" || echo "none"
}

# A row for an obligation of a kind and a size.
row() {
  python3 "$here/obligations.py" "$1" "$2" "$place"
  /usr/bin/time -q -f '%e %M' -o "$place/own" timeout 600 "$program" < "$place/lines" > "$place/printed" || true
  read -r seconds memory < "$place/own"
  printf '%-12s %7d %9s %9s %9s %9s  %s\n' "$1" "$2" "$seconds" "$memory" "$(other z3)" "$(other cvc5)" \
    "$(tail -n 1 "$place/printed")"
}

printf '%-12s %7s %9s %9s %9s %9s  %s\n' kind facts seconds KiB z3 cvc5 answer
for kind in arrays differences grid; do
  for size in $sizes; do
    row "$kind" "$size"
  done
done
# 1,000 splits one below another are taken, 1,001 aren't.
for size in 100 1000 1001; do
  row splits "$size"
done

# Goals of merges without loops: milliseconds of a process with one, and of each of 100 in a process, its start left out.
milliseconds() {
  first=$(date +%s%N)
  for _ in 1 2 3 4 5 6 7 8 9 10; do "$@" < "$place/lines" > "$place/printed" 2>&1; done
  last=$(date +%s%N)
  echo $(((last - first) / 10000))
}
printf '%-12s %7s %9s %9s %9s\n' "" goals ms z3 cvc5
for goals in 0 1 100; do
  python3 "$here/obligations.py" merges "$goals" "$place"
  set -- "$goals" "$(milliseconds "$program")"
  [ "$(grep -c '^closed' "$place/printed")" = "$goals" ] || { cat "$place/printed"; exit 1; }
  for other in z3 cvc5; do
    command -v "$other" > /dev/null || { set -- "$@" 0; continue; }
    set -- "$@" "$(milliseconds "$other" $([ "$other" = cvc5 ] && echo --incremental) "$place/obligation.smt2")"
    [ "$(grep -c -x unsat "$place/printed")" = "$goals" ] || { cat "$place/printed"; exit 1; }
  done
  echo "$@"
done | awk '{
  if ($1 == 0) { own = $2; z3 = $3; cvc5 = $4; next }
  if ($1 > 1) { $2 -= own; $3 -= z3; $4 -= cvc5 }
  printf "%-12s %7d %9.3f %9.3f %9.3f\n", "merges", $1, $2 / 1000 / $1, $3 / 1000 / $1, $4 / 1000 / $1
}'
python3 "$here/random_obligations.py" "$program" 20000
