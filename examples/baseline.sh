#!/usr/bin/env bash
# Compares what a tree of class files provides, what it requires, and its errors with a baseline.
#
#     baseline.sh [--errors-only] BASELINE DIR [OPTION]...
#     baseline.sh --write [--errors-only] BASELINE DIR [OPTION]...
#
# BASELINE is a folder, for example under version control, with the files provided.txt, required.txt and errors.txt.
# --write writes them. Without it the script compares them and prints the differences. With --errors-only it neither reads
# nor writes files other than errors.txt. OPTION is an option of `jclink check`, for example --used or --only=PREFIX, which
# apply to errors.txt only. --outside replaces java/ and javax/: to add org/, give --outside=java/ --outside=javax/
# --outside=org/.
#
# errors.txt has the lines of `jclink check --errors` without the parts that change with each build: offsets and places.
# Equal lines are written as one line that begins with their number.
#
# Status 0: written, or equal to the baseline. 1: something differs, or a file of the baseline is missing. 2: a usage error.
# 3: a file cannot be written. 2, 3, 4 and 70 are also the statuses of jclink if it makes no report; then nothing is written.
# The environment's JCLINK may name the program.
set -u -o pipefail
export LC_ALL=C
jclink=${JCLINK:-$(dirname "$(readlink -f "$0")")/../jclink}

write='' files=(provided.txt required.txt errors.txt)
while true; do
  case ${1-} in
    --write) write=yes ;;
    --errors-only) files=(errors.txt) ;;
    *) break ;;
  esac
  shift
done
if [ $# -lt 2 ]; then
  sed -n '4,5s/^#  *//p' "$0" >&2
  exit 2
fi
baseline=$1 tree=$2
shift 2

new=$(mktemp -d) || exit 3
trap 'rm -rf "$new"' EXIT

outside=() of_errors=()
for option in "$@"; do
  case $option in
    --only=* | --used) of_errors+=("$option") ;;
    *) outside+=("$option") ;;
  esac
done

# Runs jclink into a file. Ends as jclink does if it makes no report.
check() {
  local status=0
  "$jclink" check "${@:2}" >"$new/$1" || status=$?
  [ "$status" -le 1 ] || exit "$status"
}

# Removes the numbers that change with each build from lines of `check --errors`. These are the offset of an instruction, the
# place of a fault, and the place in the refusal of an unreadable file. Names may have blanks and colons, so a pattern also
# matches the text around the number.
normalize() {
  sed -E -e 's/: [0-9]+: ([a-z]+ (class|field|i?method) .* -> error [1-8] )/: \1/' -e 's/(: (code S|format F)[0-9]+) [0-9]+$/\1/' \
    -e 's/(: unreadable [1-8] [A-Z][A-Za-z]*)\([0-9]+\)$/\1/'
}

check lines --errors "${outside[@]}" "${of_errors[@]}" -- "$tree"
normalize <"$new/lines" | sort | uniq -c | sed 's/^ *//' >"$new/errors.txt"
if [ "${#files[@]}" -gt 1 ]; then
  check report "${outside[@]}" -- "$tree"
  sed -n '/^\[provided\]$/,/^\[required\]$/{/^\[/!p}' "$new/report" >"$new/provided.txt"
  sed -n '/^\[required\]$/,${/^\[/!p}' "$new/report" >"$new/required.txt"
fi

if [ -n "$write" ]; then
  mkdir -p "$baseline" && cp "${files[@]/#/"$new/"}" "$baseline" || exit 3
  exit 0
fi
differs=0
for file in "${files[@]}"; do
  diff -u --label "$baseline/$file" --label "$tree" "$baseline/$file" "$new/$file" || differs=1
done
exit "$differs"
