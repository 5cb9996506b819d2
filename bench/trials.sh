#!/bin/sh
# Checks a task whose trials run for about 10 seconds with one worker, with 1, 2 and 4 workers, and shows the time that
# went by and the processors' time. Run it at the top, after make.
set -eu
program=${1:-bin/safemerge}
rounds=${2:-40}
place=$(mktemp -d)
trap 'rm -rf "$place"' EXIT

# Three nested loops in the shared program, and a merge that keeps both edits.
cat > "$place/task" <<TASK
var i, j, k, p, q, x, y;
output x, y;
shared {
  i = 0;
  while (i < $rounds) {
    j = 0;
    while (j < $rounds) {
      k = 0;
      while (k < 20) {
        p = q + k * j;
        k = k + 1;
      }
      j = j + 1;
    }
    i = i + 1;
  }
  ?1;
  ?2;
}
base { ?1 { x = p; } ?2 { y = p; } }
variant_a { ?1 { x = q; } ?2 { y = p; } }
variant_b { ?1 { x = p; } ?2 { y = 7; } }
candidate { ?1 { x = q; } ?2 { y = 7; } }
TASK

printf '%-8s %8s %10s  %s\n' workers seconds processor answer
for workers in 1 2 4; do
  status=0
  answer=$(/usr/bin/time -q -f '%e %U' -o "$place/cost" \
    "$program" check "$place/task" "$place/found" --workers $workers) || status=$?
  read -r seconds processor < "$place/cost"
  printf '%-8s %8s %10s  %s\n' $workers "$seconds" "$processor" "$answer (status $status)"
done
