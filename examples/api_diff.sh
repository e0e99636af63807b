#!/usr/bin/env bash
# Compares the API of two versions of a library, with flags, supertypes and the values of constants.
#
#     api_diff.sh OLD NEW
#
# OLD and NEW are each a jar or a folder of class files. The API of a version is a sorted text. It has a line for each PUBLIC
# class and for each of its PUBLIC and PROTECTED fields and methods:
#
#     class a/B: PUBLIC FINAL extends a/Base implements a/Face
#     field a/B.SIZE:I: PUBLIC STATIC FINAL = 1
#     method a/B.of:(I)Z: PUBLIC
#
# The script prints the differences of the two texts as a unified diff. A PROTECTED nested class is PUBLIC in its class file.
# The texts omit the flags that no client depends on: SUPER, SYNCHRONIZED, NATIVE, STRICT, VOLATILE and TRANSIENT. They also
# omit generic signatures, throws clauses and annotations. Class files below META-INF/versions and module-info.class are left
# out. Standard error says how many other class files are not read.
#
# The listings come from one session, so that jclink does not start once for each class file.
#
# Status 0: the texts are equal. 1: they differ. 2: a usage error. 3: a version cannot be read, or has no class file of version
# 51 or 52. 3, 4 and 70 are also the statuses of jclink if it makes no report. The environment's JCLINK may name the program.
# Jars need unzip.
set -u -o pipefail
export LC_ALL=C
here=$(dirname "$(readlink -f "$0")")
jclink=${JCLINK:-$here/../jclink}
. "$here/class_files.sh" || exit 3

if [ $# -ne 2 ]; then
  sed -n '4s/^#  *//p' "$0" >&2
  exit 2
fi
work=$(mktemp -d) || exit 3
trap 'rm -rf "$work"' EXIT

fail() {
  echo "api_diff.sh: $1" >&2
  exit 3
}

# Prints the lines of a session that lists the classes of a report one by one. A report escapes names and paths; a session
# does not.
requests() {
  sed -n '1,/^\[parts\]$/s/^\(.*\): class \(.*\)$/\1\t\2/p' "$1" | while IFS=$'\t' read -r path name; do
    case $path$name in *\\*) printf -v path %b "$path" && name=$(LC_ALL=C.UTF-8 printf %b "$name") ;; esac
    printf 'add %s\nlist %s\nremove %s\n' "$2/$path" "$name" "$2/$path"
  done
}

# Prints the lines of the API from listings.
api() {
  awk '
    function flags(line) {
      sub(/.* 0x[0-9a-f]+/, "", line)
      gsub(/ (SUPER|SYNCHRONIZED|NATIVE|STRICT|VOLATILE|TRANSIENT)/, "", line)
      return line
    }
    function end_class() {
      if (name == "" || class !~ / PUBLIC/) return
      print "class " name ":" class extends (faces == "" ? "" : " implements" faces)
      for (at = 1; at <= count; at++) print members[at]
    }
    function member(line, text, rest) {
      is_kept = line ~ / 0x[0-9a-f]+.* (PUBLIC|PROTECTED)( |$)/
      if (!is_kept) return
      text = line
      sub(/ 0x[0-9a-f]+[ A-Z]*$/, "", text)
      kind = text; sub(/ .*/, "", kind)
      rest = substr(text, length(kind) + 2)
      match(rest, / [^ ]*$/)
      members[++count] = kind " " name "." substr(rest, 1, RSTART - 1) ":" substr(rest, RSTART + 1) ":" flags(line)
    }
    function value(index_, parts) {
      split(constants[index_], parts, " ")
      return parts[1] == "String" ? "\"" substr(constants[parts[2]], 6) "\"" : parts[2]
    }
    /^class / { end_class(); name = substr($0, 7); class = extends = faces = ""; count = is_kept = 0; delete constants }
    /^flags / { class = flags($0) }
    /^super / { extends = " extends " substr($0, 7) }
    /^interface / { faces = faces " " substr($0, 11) }
    /^  #/ { constants[$1] = substr($0, length($1) + 4) }
    /^(field|method) / { member($0) }
    /^attribute / { is_kept = 0 }
    /^  attribute ConstantValue / && is_kept && kind == "field" { members[count] = members[count] " = " value($4) }
    END { end_class() }' "$1"
}

# Writes the API of a version, and says how many of its class files are not read.
write_api() {
  local status=0
  lay_out "$1" "$work/$2" || fail "cannot read $1"
  "$jclink" check -- "$work/$2" >"$work/report" || status=$?
  [ "$status" -le 1 ] || exit "$status"
  requests "$work/report" "$work/$2" >"$work/requests"
  [ -s "$work/requests" ] || fail "no class file of version 51 or 52 in $1"
  "$jclink" session <"$work/requests" >"$work/listings" || exit $?
  ! grep -q -x -e none -e 'bad line' -e 'unread .*' -e 'refused .*' "$work/listings" || fail "cannot list a class of $1"
  api "$work/listings" | sort >"$work/$2.txt"
  unread=$(sed -n '1,/^\[parts\]$/{/: unreadable [1-8] /p}' "$work/report" | wc -l)
  [ "$unread" -eq 0 ] || echo "api_diff.sh: $unread class files of $1 are not read" >&2
}

write_api "$1" old
write_api "$2" new
diff -u --label "$1" --label "$2" "$work/old.txt" "$work/new.txt"
