#!/bin/sh
# Puts 5,000 random small merges to `check`, `verify` and `replay`, drawn and judged by
# random_tasks.py, and shows how often each answer came. Every one that is accepted has a proof
# that passes and holds from 2,000 inputs, every conflict is one that replay shows again, and the
# undecided ones are counted by what their edits have to do with. KEEP names a folder for the
# undecided tasks that hold, and for those with wrong answers. Run it at the top, after make.
#
# bench/random_tasks.sh [PROGRAM [COUNT [SEED [OPTION ..]]]], with options of `check`
set -eu
program=${1:-bin/safemerge}
place=$(mktemp -d)
trap 'rm -rf "$place"' EXIT

count=${2:-5000}
seed=${3:-1}
[ $# -le 3 ] && shift $# || shift 3
python3 -B "$(dirname "$0")/random_tasks.py" "$program" "${KEEP:-$place}" "$count" "$seed" "$@"
