#!/bin/sh
# Runs commands under an allocator that refuses one request for memory, each request in turn: where
# there are more than 2,500, the first and the last 250 and 2,500 of all, evenly. Every second
# `check` finds an older file at PROOF, and every second `trim` at OUT. A run has to give the answer
# that comes without a refusal; or status 6 with nothing printed or a front of that answer, and the
# file as it was or a front of the proof. Ends with status 1 if one doesn't. Run it at the top, after
# make.
#
# Shows of each command how many requests it makes, how many runs were made, and of these how many
# gave the answer; how many ended with status 6 and printed nothing, or printed a front, or wrote a
# front of the proof; and how many are wrong.
#
# A program that was built for another C library is run by its own loader: LOADER is the command of
# that.
#
# bench/refused_memory.sh [PROGRAM [RUNS]]
set -eu
program=${1:-bin/safemerge}
runs=${2:-2500}
loader=${LOADER:-}
here=$(dirname "$0")
place=$(mktemp -d)
trap 'rm -rf "$place"' EXIT
gcc -O2 -shared -fPIC -o "$place/refusing.so" "$here/refused_memory.c"

cat > "$place/task" <<TASK
var i, n;
array a, c, out, log;
output out, log;
shared {
  i = 0;
  while (i < n) {
    ?1;
    ?2;
    i = i + 1;
  }
}
base { ?1 { out[i] = a[i]; } ?2 { log[i] = c[i]; } }
variant_a { ?1 { out[i] = a[i] + 1; } ?2 { log[i] = c[i]; } }
variant_b { ?1 { out[i] = a[i]; } ?2 { log[i] = c[i] + i; } }
candidate { ?1 { out[i] = a[i] + 1; } ?2 { log[i] = c[i] + i; } }
TASK
echo '{"n":3,"a":{"0":1,"1":2,"2":3}}' > "$place/input"

# One that the search leaves open, and that an input beyond the trials shows to be wrong.
cat > "$place/open" <<TASK
var size, limit, large;
output large;
shared { ?1; ?2; }
base { ?1 { limit = 100; } ?2 { large = 0; } }
variant_a { ?1 { limit = 200; } ?2 { large = 0; } }
variant_b { ?1 { limit = 100; } ?2 { if (size > limit) { large = 1; } else { large = 0; } } }
candidate { ?1 { limit = 200; } ?2 { if (size > limit) { large = 1; } else { large = 0; } } }
TASK

# One that the search leaves open, and that is accepted by a proof along runs.
cat > "$place/turned" <<TASK
var load, extra;
output extra;
shared { ?1; }
base { ?1 { extra = 0; } }
variant_a { ?1 { if (9 < load) { extra = load - 9; } else { extra = 0; } } }
variant_b { ?1 { if (load > 9) { extra = load - 9; } else { extra = 0; } } }
candidate { ?1 { if (load > 9) { extra = load - 9; } else { extra = 0; } } }
TASK
printf '%s\n' "$place/turned" "$place/fees.task" > "$place/list"

# Runs the program with the words, and request $1 refused.
refusing() {
  number=$1
  shift
  if [ -n "$loader" ]; then
    REFUSE=$number timeout 60 $loader --preload "$place/refusing.so" "$program" "$@"
  else
    REFUSE=$number timeout 60 env LD_PRELOAD="$place/refusing.so" "$program" "$@"
  fi > "$place/printed"
}

# The requests that are to be refused, of so many.
numbers() {
  awk -v all="$1" -v runs="$runs" 'BEGIN {
    if (all <= runs) { for (k = 1; k <= all; k++) print k; exit }
    for (k = 1; k <= 250 && k <= all; k++) { print k; print all + 1 - k }
    for (k = 0; k < runs; k++) print 1 + int(k * all / runs)
  }' | sort -n -u
}

# Whether file $1 is a front of file $2.
front() {
  cmp -s -n "$(wc -c < "$1")" "$1" "$2"
}

# What a run came to, whose status is $1 and that had the proof's file as $2, or nothing: a word.
result() {
  if [ "$1" = "$wanted" ]; then
    cmp -s "$place/printed" "$place/answer" || { echo wrong; return; }
    [ ! -e "$place/whole" ] || cmp -s "$place/found" "$place/whole" || { echo wrong; return; }
    echo answered
    return
  fi
  [ "$1" = 6 ] && front "$place/printed" "$place/answer" || { echo wrong; return; }
  word=nothing
  [ ! -s "$place/printed" ] || word=printed
  if [ ! -e "$place/found" ]; then
    [ -z "$2" ] || word=wrong
  elif [ -z "$2" ] || ! cmp -s "$place/found" "$2"; then
    word=written
    [ -e "$place/whole" ] && front "$place/found" "$place/whole" || word=wrong
  fi
  echo "$word"
}

# A row for a command, which is the words.
row() {
  name=$1
  shift
  rm -f "$place/found" "$place/whole" "$place/results"
  wanted=0
  COUNT="$place/count" refusing 0 "$@" || wanted=$?
  cp "$place/printed" "$place/answer"
  [ ! -e "$place/found" ] || cp "$place/found" "$place/whole"
  for k in $(numbers "$(cat "$place/count")"); do
    rm -f "$place/found"
    before=
    if [ -e "$place/whole" ] && [ $((k % 2)) = 0 ]; then
      before=$place/older
      cp "$place/older" "$place/found"
    fi
    status=0
    refusing "$k" "$@" 2> "$place/errors" || status=$?
    word=$(result "$status" "$before")
    [ "$word" != wrong ] || echo "wrong: $name, request $k: status $status" >&2
    echo "$word" >> "$place/results"
  done
  show "$name"
}

show() {
  awk -v name="$1" -v requests="$(cat "$place/count")" '{ count[$1]++ } END {
    printf "%-22s %9d %6d %8d %8d %8d %8d %6d\n", name, requests, NR, count["answered"],
      count["nothing"], count["printed"], count["written"], count["wrong"]
    exit count["wrong"] > 0
  }' "$place/results" || failed=1
}

echo 'safemerge-proof 1, of an earlier run' > "$place/older"
cp "$here/../examples/proof_by_hand/fees.task" "$here/../examples/proof_by_hand/fees.proof" "$place"
failed=0
printf '%-22s %9s %6s %8s %8s %8s %8s %6s\n' \
  command requests runs answered nothing printed written wrong
row verify verify "$place/fees.task" "$place/fees.proof"
row replay replay "$place/task" "$place/input"
row gen gen 1 3
row check check "$place/task" "$place/found"
row 'check, 3 workers' check "$place/task" "$place/found" --workers 3
row 'check --deeper' check "$place/open" "$place/found" --deeper
row 'check --deeper, proof' check "$place/turned" "$place/found" --deeper
row 'check --why' check "$place/open" "$place/found" --why
row 'check --why, table' check "$place/open" "$place/found" --deeper --why
row 'check --seconds' check "$place/task" "$place/found" --seconds 1000
row trim trim "$place/fees.task" "$place/fees.proof" "$place/found"
row batch batch "$place/list" --steps 1000
row suggest suggest "$place/task" --steps 1000
row 'print --copy' print "$place/task" --copy candidate
row explain explain "$place/task"
row 'explain, an input' explain "$place/task" "$place/input"
row help help
row version version
exit $failed
