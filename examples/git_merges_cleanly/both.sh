#!/bin/sh
# What git and SafeMerge say of one merge: A raises a limit, and B reads the limit where the base repeated its value.
# Makes a repository with a branch for each in a temporary folder, and merges them twice: as git does by itself, and
# with SafeMerge as the merge driver. It needs git, python3, and safemerge on the path.
set -eu
here=$(cd "$(dirname "$0")" && pwd)
driver=$(cd "$here/../../contrib" && pwd)/git-merge-safemerge
place=$(mktemp -d)
trap 'rm -rf "$place"' EXIT
cd "$place"

# nobody's settings, and one date, so that each run is the same
export GIT_CONFIG_GLOBAL=/dev/null GIT_CONFIG_NOSYSTEM=1
export GIT_AUTHOR_NAME=A GIT_AUTHOR_EMAIL=a@example.com GIT_AUTHOR_DATE="2000-01-01T00:00:00Z"
export GIT_COMMITTER_NAME=A GIT_COMMITTER_EMAIL=a@example.com GIT_COMMITTER_DATE="2000-01-01T00:00:00Z"
unset GIT_DIR GIT_WORK_TREE GIT_INDEX_FILE SAFEMERGE

version() {
  cp "$here/$1.prog" limits.prog
  git add limits.prog
  git commit -q -m "$2"
}

git init -q
git checkout -q -b a
version base "the limit is low"
git checkout -q -b b
version b "use the limit"
git checkout -q a
version a "raise the limit"

status=0
git merge -m "merge b" b >/dev/null || status=$?
echo "git merge: status $status"
cat limits.prog
git reset -q --hard HEAD~

echo
echo "*.prog merge=safemerge" >.gitattributes
git config merge.safemerge.driver "'$driver' %O %A %B %P"
status=0
{ git merge -m "merge b" b >/dev/null; } 2>&1 || status=$?
echo "git merge with the driver: status $status"
git status --short limits.prog
