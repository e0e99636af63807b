#!/usr/bin/env bash
# Prints the errors that a client has with a new version of a library and does not have with the old version.
#
#     clients.sh OLD NEW CLIENT [OPTION]...
#
# OLD and NEW are the library's versions. Each of the three is a jar or a folder of class files; jars in a folder are not
# read. OPTION is an option of `jclink check --errors`, for example --used or --only=PREFIX. --outside replaces java/ and
# javax/: to add org/, give --outside=java/ --outside=javax/ --outside=org/.
#
# The lines are those of `jclink check --errors` for the client's classes. The library's own errors are left out. A class that
# both the library and the client give is the library's.
#
# Unpack the other libraries that the client and the library need into the folder of CLIENT. If a supertype of a class is
# missing, the references of that class are not checked. Standard error counts the classes that do not load with OLD. The API
# of Java 8 (api.py) can be in this folder too: without it, a missing member of a class with a supertype in java/ or javax/ is
# no error.
#
# META-INF/versions and module-info.class are left out. Standard error says how many other class files are not read.
#
# Status 0: there are no such errors. 1: they are printed. 2: a usage error. 3: a jar or folder cannot be read, or has no class
# file of version 51 or 52. 2, 3, 4 and 70 are also the statuses of jclink if it makes no report. The environment's JCLINK may
# name the program. Jars need unzip.
set -u -o pipefail
export LC_ALL=C
here=$(dirname "$(readlink -f "$0")")
jclink=${JCLINK:-$here/../jclink}
. "$here/class_files.sh" || exit 3

if [ $# -lt 3 ]; then
  sed -n '4s/^#  *//p' "$0" >&2
  exit 2
fi
work=$(mktemp -d) || exit 3
trap 'rm -rf "$work"' EXIT

fail() {
  echo "clients.sh: $1" >&2
  exit 3
}

# Runs jclink into a file. Ends as jclink does if it makes no report.
check() {
  local status=0
  "$jclink" check "${@:2}" >"$work/$1" || status=$?
  [ "$status" -le 1 ] || exit "$status"
}

# Fails if a report has no class of a version or of the client, whose paths begin with a digit. Says how many of its class
# files are not read.
count() {
  sed -n "1,/^\[parts\]\$/{/^$2\//p}" "$work/$1" >"$work/files"
  grep -q -e ': class ' -e ': shadowed ' "$work/files" || fail "no class file of version 51 or 52 in $3"
  local unread
  unread=$(grep -c ': unreadable [1-8] ' "$work/files")
  [ "$unread" -eq 0 ] || echo "clients.sh: $unread class files of $3 are not read" >&2
}

# Says how many classes do not load with the old version, and shows the line of the first.
count_unloaded() {
  grep '^[^:]*: error [1-8] ' "$work/old.lines" >"$work/unloaded" || return 0
  echo "clients.sh: $(wc -l <"$work/unloaded") of the classes do not load with $1, and their references are not checked; the first is" \
    "$(head -n 1 "$work/unloaded")" >&2
}

# The lines of the client's classes, sorted. A line begins with the name of its class, before a colon or a full stop.
of_client() {
  awk 'NR == FNR { is_client[$0]; next } { name = $0; sub(/(: |\.).*/, "", name) } name in is_client' "$work/names" "$work/$1" | sort
}

# The paths of the library are less than those of the client, so the library's classes win.
lay_out "$1" "$work/old/0" || fail "cannot read $1"
lay_out "$2" "$work/new/0" || fail "cannot read $2"
lay_out "$3" "$work/old/1" || fail "cannot read $3"
cp -al "$work/old/1" "$work/new/1" || exit 3
check old.report -- "$work/old"
check new.report -- "$work/new"
count old.report 0 "$1"
count new.report 0 "$2"
count new.report 1 "$3"
sed -n '1,/^\[parts\]$/s/^1\/.*: class //p' "$work/new.report" >"$work/names"
check old.lines --errors "${@:4}" -- "$work/old"
check new.lines --errors "${@:4}" -- "$work/new"
count_unloaded "$1"
of_client old.lines >"$work/old.txt"
of_client new.lines >"$work/new.txt"
comm -13 "$work/old.txt" "$work/new.txt" >"$work/errors"
cat "$work/errors"
[ ! -s "$work/errors" ]
