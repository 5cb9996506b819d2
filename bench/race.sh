#!/bin/sh
# Checks one name many times while two tasks take that name in turn, by rename, and counts the answers. Both tasks
# conflict, but the first 65,536 bytes of either with the rest of the other are a safe merge: `Accepted` would show
# that one run read both. Ends with status 1 if an answer isn't one of the two files'. It needs perl. Run it at the
# top, after make.
#
# bench/race.sh [PROGRAM [RUNS [SECONDS]]]
set -eu
program=${1:-bin/safemerge}
runs=${2:-2000}
seconds=${3:-300}
place=$(mktemp -d)
trap 'kill "$swapper" 2>/dev/null || true; rm -rf "$place"' EXIT
swapper=

# A task of 65,564 bytes: A's edit, a comment up to byte 65,536, and what the candidate has.
task() {
  awk -v edit="$1" -v merged="$2" '
    BEGIN {
      head = "var x, y, z; output x; shared { ?1; } base { ?1 { x = y; } } "
      head = head "variant_a { ?1 { x = " edit "; } } variant_b { ?1 { x = y; } } #"
      while (length(head) < 65535) head = head "-"
      printf "%s\ncandidate { ?1 { x = %s; } }\n", head, merged
    }'
}

task z y > "$place/lost"        # A's edit is lost
task y z > "$place/invented"    # an edit that nobody made
head -c 65536 "$place/lost" > "$place/mixed"
tail -c +65537 "$place/invented" >> "$place/mixed"

answer() { "$program" check "$1" "$place/found" | head -n 1; }
lost=$(answer "$place/lost")
invented=$(answer "$place/invented")
echo "first file:  $lost"
echo "second file: $invented"
echo "mixed:       $(answer "$place/mixed")"

cp "$place/lost" "$place/task"
perl -e '($task, @files) = @ARGV; while (1) { for (@files) { link $_, "$task.next"; rename "$task.next", $task } }' \
  "$place/task" "$place/lost" "$place/invented" &
swapper=$!

end=$(($(date +%s) + seconds))
run=0
while [ "$run" -lt "$runs" ] && [ "$(date +%s)" -lt "$end" ]; do
  answer "$place/task"
  run=$((run + 1))
done > "$place/answers"
sort "$place/answers" | uniq -c
! grep -q -v -x -F -e "$lost" -e "$invented" "$place/answers"
