#!/bin/sh
# A job for CI: asks of each merge between a commit and the present one, and keeps every line that
# is printed, with the tasks and the proofs, in a folder that the job hands on. Its status is the
# worst of all: 0 goes on, 1 fails, 2 and more go to a person.
#
# ci.sh FROM [FOLDER]
set -u
PATH=$(cd "$(dirname "$0")/.." && pwd):$PATH
from=$1
folder=${2:-safemerge}
worst=0
merges=$(git rev-list --reverse --merges "$from..HEAD") || exit 4
mkdir -p "$folder" || exit 4
: >"$folder/answers.txt" || exit 4

for merge in $merges; do
  echo "merge $merge" >"$folder/answer"
  git-safemerge --keep "$folder/$merge" "$merge" >>"$folder/answer" 2>&1
  status=$?
  tee -a "$folder/answers.txt" <"$folder/answer"
  case $worst,$status in
    1,*) ;;
    *,1) worst=1 ;;
    *) [ "$status" -le "$worst" ] || worst=$status ;;
  esac
done
rm -f "$folder/answer"
exit "$worst"
