#!/bin/sh
# Reads and prints tasks of 64 KiB, 256 KiB and 1 MiB, and shows seconds, memory, and bytes of memory a byte read.
# The first kind has many declarations and fillings, the second one long comment. Run it at the top, after make.
set -eu
program=${1:-bin/safemerge}
place=$(mktemp -d)
trap 'rm -rf "$place"' EXIT

# A task of about the given number of bytes: 200 names, and holes that each list fills with assignments of long names.
fillings() {
  awk -v size="$1" '
    function name(i) { return sprintf("v%03d_%s", i, pad) }
    function list(word, i, k) {
      printf "%s {\n", word
      for (i = 1; i <= holes; i++) {
        printf "  ?%d {", i
        for (k = 0; k < 4; k++) printf " %s = %s;", name((i + k) % 200), name((i * 7 + k) % 200)
        printf " }\n"
      }
      printf "}\n"
    }
    BEGIN {
      for (i = 0; i < 24; i++) pad = pad "x"
      holes = int((size - 7000) / (4 * 288 + 6)); if (holes < 1) holes = 1; if (holes > 999) holes = 999
      for (i = 0; i < 200; i++) printf "var %s;\n", name(i)
      printf "output %s;\nshared {\n", name(0)
      for (i = 1; i <= holes; i++) printf "?%d;\n", i
      printf "}\n"
      list("base"); list("variant_a"); list("variant_b"); list("candidate")
    }'
}

# A task with a comment of about the given number of bytes.
comment() {
  awk -v size="$1" '
    BEGIN {
      printf "var x; output x; # "
      for (i = 0; i < size - 120; i++) printf "a"
      printf "\nshared { } base { } variant_a { } variant_b { } candidate { }\n"
    }'
}

printf '%-10s %9s %8s %8s %8s\n' kind bytes seconds KiB ratio
for kind in fillings comment; do
  for size in 65536 262144 1048576; do
    $kind $size > "$place/task"
    bytes=$(wc -c < "$place/task")
    /usr/bin/time -f '%e %M' -o "$place/cost" "$program" print "$place/task" > "$place/printed"
    "$program" print "$place/printed" | cmp - "$place/printed"
    read -r seconds memory < "$place/cost"
    printf '%-10s %9d %8s %8s %8s\n' $kind "$bytes" "$seconds" "$memory" $((memory * 1024 / bytes))
  done
done
