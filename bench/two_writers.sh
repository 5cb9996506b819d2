#!/bin/sh
# Lets two checks write to one PROOF at the same time, many times, and FIFOs be PROOF.
#
# In a pair both print `Accepted`, and PROOF is left with the whole proof of one of them, which
# `verify` accepts for its task, or with a proper front of one, which `verify` rejects for both.
# Half of the pairs check one task, whose proof is left whole each time; the other half check two
# tasks, whose proofs differ in length. Every second pair finds an older file at PROOF. The programs
# wait before they open, write to, measure or cut a file, each time for up to 10 ms, so that their calls mix.
# A FIFO gets the whole proof. Ends with status 1 if it isn't so. Run it at the top, after make.
#
# Shows how many pairs there were of either kind, and how many left a whole proof and how many a
# front; and how many FIFOs got the whole.
#
# A program that was built for another C library is run by its own loader: LOADER is the command of
# that.
#
# bench/two_writers.sh [PROGRAM [PAIRS [FIFOS]]]
set -eu
program=${1:-bin/safemerge}
pairs=${2:-2000}
fifos=${3:-20}
loader=${LOADER:-}
here=$(dirname "$0")
place=$(mktemp -d)
trap 'rm -rf "$place"' EXIT
gcc -O2 -shared -fPIC -o "$place/late.so" "$here/late_writes.c"

cat > "$place/long" <<TASK
var i, n;
array a, c, out, log;
output out, log;
shared {
  i = 0;
  while (i < n) {
    ?1;
    ?2;
    i = i + 1;
  }
}
base { ?1 { out[i] = a[i]; } ?2 { log[i] = c[i]; } }
variant_a { ?1 { out[i] = a[i] + 1; } ?2 { log[i] = c[i]; } }
variant_b { ?1 { out[i] = a[i]; } ?2 { log[i] = c[i] + i; } }
candidate { ?1 { out[i] = a[i] + 1; } ?2 { log[i] = c[i] + i; } }
TASK
cat > "$place/short" <<TASK
var i, n;
array a, out, log;
output out, log;
shared {
  i = 0;
  while (i < n) {
    ?1;
    ?2;
    i = i + 1;
  }
}
base { ?1 { out[i] = a[i]; } ?2 { log[i] = 0; } }
variant_a { ?1 { out[i] = a[i] + 1; } ?2 { log[i] = 0; } }
variant_b { ?1 { out[i] = a[i]; } ?2 { log[i] = 1; } }
candidate { ?1 { out[i] = a[i] + 1; } ?2 { log[i] = 1; } }
TASK

# Runs the program with the words.
run() {
  timeout 60 $loader "$program" "$@"
}

# The same, with late writes.
run_late() {
  if [ -n "$loader" ]; then
    LATE=10000 timeout 60 $loader --preload "$place/late.so" "$program" "$@"
  else
    LATE=10000 timeout 60 env LD_PRELOAD="$place/late.so" "$program" "$@"
  fi
}

# Whether file $1 is a front of file $2.
front() {
  cmp -s -n "$(wc -c < "$1")" "$1" "$2"
}

# What two checks of the tasks $1 and $2 left: a word.
result() {
  for answer in "$place/first" "$place/second"; do
    [ "$(cat "$answer")" = Accepted ] || { echo wrong; return; }
  done
  for task in "$1" "$2"; do
    if cmp -s "$place/found" "$place/$task.proof"; then
      [ "$(run verify "$place/$task" "$place/found")" = Accepted ] && echo whole || echo wrong
      return
    fi
  done
  front "$place/found" "$place/$1.proof" || front "$place/found" "$place/$2.proof" || { echo wrong; return; }
  for task in "$1" "$2"; do
    if run verify "$place/$task" "$place/found" > "$place/verified"; then echo wrong; return; fi
    grep -q '^Rejected ' "$place/verified" || { echo wrong; return; }
  done
  echo front
}

# A row for pairs of checks of the tasks $2 and $3.
row() {
  rm -f "$place/results"
  k=0
  while [ "$k" -lt "$((pairs / 2))" ]; do
    rm -f "$place/found"
    [ $((k % 2)) = 0 ] || cp "$place/older" "$place/found"
    run_late check "$place/$2" "$place/found" > "$place/first" &
    one=$!
    run_late check "$place/$3" "$place/found" > "$place/second" || true
    wait "$one" || true
    result "$2" "$3" >> "$place/results"
    k=$((k + 1))
  done
  awk -v name="$1" '{ count[$1]++ } END {
    printf "%-10s %6d %6d %6d %6d\n", name, NR, count["whole"], count["front"], count["wrong"]
    exit count["wrong"] > 0
  }' "$place/results" || failed=1
}

failed=0
for task in long short; do
  run check "$place/$task" "$place/$task.proof" > "$place/answer"
  echo "proof of the $task task: $(wc -c < "$place/$task.proof") bytes, $(cat "$place/answer")"
done
cat "$place/long.proof" "$place/long.proof" > "$place/older"
printf '%-10s %6s %6s %6s %6s\n' pairs runs whole front wrong
row 'one task' long long
! grep -q front "$place/results" || failed=1
row 'two tasks' long short

whole=0
k=0
while [ "$k" -lt "$fifos" ]; do
  rm -f "$place/fifo"
  mkfifo "$place/fifo"
  timeout 20 cat "$place/fifo" > "$place/got" &
  reader=$!
  answer=$(timeout 20 $loader "$program" check "$place/long" "$place/fifo" || true)
  wait "$reader" || true
  if [ "$answer" = Accepted ] && cmp -s "$place/got" "$place/long.proof"; then whole=$((whole + 1)); fi
  k=$((k + 1))
done
echo "FIFOs that got the whole proof: $whole of $fifos"
[ "$whole" = "$fifos" ] || failed=1
exit $failed
