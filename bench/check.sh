#!/bin/sh
# Checks tasks of 128 KiB, 512 KiB and 1 MiB whose four programs have up to 20,000 nodes, with one worker, and shows
# seconds and memory. Almost all of each program is shared, so what is filled anew for each run shows. Run it at the
# top, after make.
#
# bench/check.sh [PROGRAM]
set -eu
program=${1:-bin/safemerge}
place=$(mktemp -d)
trap 'rm -rf "$place"' EXIT

# A task of the given number of assignments in its shared program, of 200 long names, and two edits that don't meet.
task() {
  awk -v count="$1" '
    function name(i) { return sprintf("v%03d_%s", i, pad) }
    BEGIN {
      for (i = 0; i < 43; i++) pad = pad "x"
      for (i = 0; i < 200; i++) printf "var %s;\n", name(i)
      printf "output %s, %s;\nshared {\n", name(0), name(1)
      for (i = 0; i < count; i++) printf "%s=%s;\n", name(2 + i % 198), name((i * 7) % 200)
      printf "?1;\n?2;\n}\n"
      split("base variant_a variant_b candidate", list, " ")
      for (i = 1; i <= 4; i++)
        printf "%s { ?1 { %s = %d; } ?2 { %s = %d; } }\n", list[i], name(0), (i == 2 || i == 4), name(1), (i > 2)
    }'
}

printf '%-9s %9s %8s %8s  %s\n' nodes bytes seconds KiB answer
for count in 1220 4900 9990; do
  task "$count" > "$place/task"
  status=0
  answer=$(/usr/bin/time -q -f '%U %M' -o "$place/cost" \
    "$program" check "$place/task" "$place/found") || status=$?
  read -r seconds memory < "$place/cost"
  printf '%-9d %9d %8s %8s  %s\n' $((2 * count + 4)) "$(wc -c < "$place/task")" "$seconds" "$memory" "$answer (status $status)"
done
