#!/bin/sh
# Replays a task from inputs that are drawn from its own literals: each of them, and if it has at most 9 digits one less,
# one more, and each of these negated. About every second value is one that an earlier name has. Shows the first input
# that conflicts and ends with status 1, or shows how often each answer came.
#
# sh ./inputs.sh TASK [INPUTS]
set -eu
task=$1
inputs=${2:-256}
place=$(mktemp -d)
trap 'rm -rf "$place"' EXIT

safemerge print "$task" > "$place/text"
awk -v inputs="$inputs" '
  function drawn(n) { seed = seed * 16807 % 2147483647; return int(seed / 7) % n }
  function add(value) { if (!(value in seen)) { seen[value] = 1; values[size++] = value } }
  function value(chosen) {
    chosen = used && drawn(2) ? earlier[drawn(used)] : values[drawn(size)]
    earlier[used++] = chosen
    return "\"" chosen "\""
  }
  function cells(text, i) {
    for (i = 0; i < 4; i++) text = text (i ? "," : "") "\"" i "\":" value()
    return "{" text "}"
  }
  BEGIN { seed = 1; size = names = 0; add(0) }
  $1 == "var" || $1 == "array" { sort[names] = $1; name[names++] = substr($2, 1, length($2) - 1); next }
  {
    gsub(/\?[0-9]+|[A-Za-z_][A-Za-z_0-9]*/, " ")
    gsub(/[^0-9]+/, " ")
    for (i = 1; i <= NF; i++) {
      add($i)
      if (length($i) > 9) continue
      add($i - 1); add($i + 1); add(0 - $i); add(1 - $i); add(-1 - $i)
    }
  }
  END {
    for (; inputs > 0; inputs--) {
      used = 0
      text = ""
      for (i = 0; i < names; i++)
        text = text (i ? "," : "") "\"" name[i] "\":" (sort[i] == "var" ? value() : cells(""))
      print "{" text "}"
    }
  }' "$place/text" > "$place/inputs"

while read -r input; do
  status=0
  printf '%s' "$input" | safemerge replay "$task" /dev/stdin > "$place/answer" || status=$?
  if [ "$status" -eq 1 ]; then
    cat "$place/answer"
    echo "input $input"
    exit 1
  fi
  cat "$place/answer" >> "$place/answers"
done < "$place/inputs"
sort "$place/answers" | uniq -c
