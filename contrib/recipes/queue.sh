#!/bin/sh
# Goes through tasks that are made already, and keeps all lines of each answer. A proof is written
# under a name of its own first, into a folder of its own: so no name of a task is one of a proof,
# and where the disk is full an older proof stays.
#
# queue.sh PROOFS TASK..
set -u
proofs=$1
shift
mkdir -p "$proofs" || exit

# Where all is 0 at the start the base, A and B end, and the candidate takes too many turns.
runs_on() {
  ends=$(printf '{}' | timeout 60 safemerge replay --turns 1000 "$1" /dev/stdin)
  [ "$ends" = "OutOfTurns M" ]
}

for task in "$@"; do
  name=$proofs/$(printf '%s' "$task" | tr / +)
  new=$name.$$
  answer=$(timeout 60 safemerge check --deeper --turns 100 "$task" "$new")
  status=$?
  printf '%s\n' "$answer" >"$name.answer"
  case $status,$answer in
    0,Accepted)
      if runs_on "$task"; then echo "$task: ask a person: accepted, but it may never end"
      else mv "$new" "$name.proof" && echo "$task: merge"; fi ;;
    1,*) echo "$task: reject: $answer" ;;
    *) echo "$task: ask a person: status $status $answer" ;;
  esac
  rm -f "$new"
done
