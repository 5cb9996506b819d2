#!/bin/sh
# Answers a list in parts that are asked at once, and joins what they print to what one call of batch
# would print: the lines in the order of the list with their numbers, and the status. So the list
# may have more than 1,000 names. Here each part is a process; put in `asked` what hands a part and
# its files to another machine.
#
# over_machines.sh LIST PARTS [OPTION ..]
set -u
list=$1 parts=$2
shift 2
folder=$(mktemp -d) || exit 9
trap 'rm -rf "$folder"' EXIT

asked() {
  safemerge batch "$@"
}

split -n "l/$parts" -d -a 3 "$list" "$folder/part." || exit 5
for part in "$folder"/part.???; do
  { asked "$part" "$@" >"$part.answer"; echo "$?" >"$part.status"; } &
done
wait

# A part that is no list goes before all, and one that has no answer before those that have.
before=0
for part in "$folder"/part.???; do
  read -r word what line <"$part.answer" || word=
  if [ "$word $what" = "Refused BadList" ]; then
    echo "Refused BadList $((before + line))"
    exit 3
  fi
  before=$((before + $(wc -l <"$part")))
done
for part in "$folder"/part.???; do
  read -r status <"$part.status"
  if [ "$status" -gt 3 ]; then
    cat "$part.answer"
    exit "$status"
  fi
done

# All are accepted; else there is a conflict; else something is refused; else something isn't decided.
joined=0 before=0
for part in "$folder"/part.???; do
  read -r status <"$part.status"
  case $status,$joined in
    1,* | *,1) joined=1 ;;
    3,* | *,3) joined=3 ;;
    2,* | *,2) joined=2 ;;
  esac
  while read -r number line; do
    echo "$((before + number)) $line"
  done <"$part.answer"
  before=$((before + $(wc -l <"$part")))
done
exit "$joined"
