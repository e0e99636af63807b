#!/usr/bin/env bash
# Prints the linkage errors of a class path.
#
#     classpath.sh [--java FILE] [--only PREFIX]... [--outside PREFIX]... [--keep DIR] CLASSPATH
#     classpath.sh --help
#
# CLASSPATH is written as for `java -cp`: folders and jars, separated by colons, for example app/classes:lib/*:x.jar.
# `lib/*` means the files of lib whose names end in .jar or .JAR, sorted by name. A virtual machine uses them in an unspecified
# order. An empty element is the working folder, but an empty CLASSPATH is a usage error.
#
# The jars and folders in the Class-Path of a jar's manifest follow the jar. If one of them does not exist, standard error
# names it. Each entry counts once.
#
# --java FILE         resolves against the API of Java 8, which is the first entry. FILE is lib/ct.sym of a JDK of version 12
#                     or later, rt.jar of a JDK 8, or a folder of class files. Errors of its own classes are not printed.
#
#                     If FILE has no sun/misc/Unsafe, sun/ and com/sun/ are outside. A ct.sym has none. Without --java all
#                     packages of Java 8 are outside: those of its API specification, and sun/, com/sun/ and jdk/. These
#                     prefixes hide some libraries, such as com/sun/jna/ and the annotations of JSR 305 in
#                     javax/annotation/.
#
# --only PREFIX       prints only the errors of classes whose names begin with PREFIX, and of unreadable files whose paths in
#                     their entries do; up to 54 times. PREFIX has slashes, for example com/acme/. If no class file with such a
#                     path is read, standard error says so. If that is so for each PREFIX, the status is 3.
#
# --outside PREFIX    names that begin with PREFIX are outside too
#
# --keep DIR          keeps the checked tree in DIR, which is empty or new. DIR/entries says which entry each numbered folder
#                     is. DIR/outside has the outside prefixes.
#
# Each line is an error of `jclink check --errors --used`. The path of an unreadable file begins with its entry, for example
# lib/x.jar!a/B.class. Standard error says how many class files there are. If several entries have a file of one path, the
# first is read and the others are shadowed. Within a jar the last is read. Class files below META-INF/versions/ and
# module-info.class do not count. Jars inside a jar are not read, but counted.
#
# Class files of other versions than 51 and 52 are skipped. They are counted for each entry, and their packages are outside.
# No prefix covers a class that is read. If 64 prefixes are too few, the longest common prefixes replace the prefixes that
# begin with them. Standard error names the packages that are still left: references to their classes are printed as errors.
#
# The name of a class is the one in its file, whatever the path of the file in its entry is. A virtual machine finds only
# files whose paths are the names of their classes. The script needs python3.
#
# Status 0: nothing is wrong. 1: a line was printed. 2: a usage error. 3: an entry is missing or damaged, no class file that
# is asked for is read, or the tree cannot be written. 2, 3, 4 and 70 are also the statuses of jclink. The environment's
# JCLINK may name the program.
set -u -o pipefail
export LC_ALL=C
here=$(dirname "$(readlink -f "$0")")
jclink=${JCLINK:-$here/../jclink}

help() {
  sed -n '2,/^set /s/^# \{0,1\}//p' "$0"
}

usage() {
  sed -n '4s/^#  *//p' "$0" >&2
  echo 'classpath.sh --help prints the options' >&2
  exit 2
}

fail() {
  echo "classpath.sh: $1" >&2
  exit 3
}

java=() only=() outside=() keep=
while [ $# -gt 0 ]; do
  case $1 in
    --java=* | --only=* | --outside=* | --keep=*) set -- "${1%%=*}" "${1#*=}" "${@:2}" ;;
  esac
  case $1 in
    --java | --only | --outside | --keep) if [ -z "${2-}" ]; then usage; fi ;;&
    --java) java=("--java=$2") ;;
    --only) only+=("$2") ;;
    --outside) outside+=("--outside=$2") ;;
    --keep) keep=$2 ;;
    -h | --help) help && exit ;;
    --) shift && break ;;
    -*) usage ;;
    *) break ;;
  esac
  shift 2
done
if [ $# -ne 1 ] || [ -z "$1" ]; then usage; fi

work=$(mktemp -d) || exit 3
trap 'rm -rf "$work"' EXIT
tree=$work/tree copy=()
if [ -n "$keep" ]; then
  tree=$keep copy=(--copy)
fi
mkdir -p -- "$tree" || exit 3
[ -z "$(ls -A -- "$tree")" ] || fail "$keep is not empty"
python3 "$here/entries.py" "${java[@]}" "${outside[@]}" "${copy[@]}" -- "$tree" "$1"
status=$?
if [ "$status" -ne 0 ]; then
  find "$tree/" -mindepth 1 -delete
  exit "$status"
fi

# Succeeds if the path of a file in its entry, as jclink prints it, begins with a prefix of --only.
is_asked() {
  local path prefix
  printf -v path %b "$1"
  for prefix in "${only[@]}"; do
    [[ $path != "$prefix"* ]] || return 0
  done
  [ ${#only[@]} -eq 0 ]
}

# Succeeds if the class of this name, or the class that it is nested in, is of the API that --java gives.
is_of_java() {
  [ ${#java[@]} -gt 0 ] && [ -e "$tree/$first/${1%%\$*}.class" ]
}

# Copies the lines that are errors of the class path, with each path in its entry.
select_own() {
  local line path number
  while IFS= read -r line; do
    path=${line#*/} number=${line%%/*}
    case $line in
      [0-9]*/*': unreadable '*)
        [ ${#java[@]} -eq 0 ] || [ "$((10#$number))" -ne 0 ] || continue
        ! is_asked "${path%: unreadable *}" || printf '%s\n' "${entries[10#$number]}$path" ;;
      *)
        # The name of a class ends before the first `:` or `.` of its line.
        is_of_java "${line%%[.:]*}" || printf '%s\n' "$line" ;;
    esac
  done
}

mapfile -t entries <"$tree/entries"
mapfile -t prefixes <"$tree/outside"
folders=("$tree"/[0-9]*)
is_any=
for prefix in "${only[@]}"; do
  found=("$tree"/[0-9]*/"$prefix"*)
  if [ -e "${found[0]}" ]; then
    is_any=yes
  else
    echo "--only $prefix: no class file with such a path is read" >&2
  fi
done
if [ ${#only[@]} -gt 0 ] && [ -z "$is_any" ]; then
  find "$tree/" -mindepth 1 -delete
  fail '--only asks for no class file that is read; a prefix has slashes, for example com/acme/'
fi
first=${folders[0]##*/} options=("${prefixes[@]/#/--outside=}" "${only[@]/#/--only=}")
if [ ${#only[@]} -gt 0 ]; then
  # The path of an unreadable file begins with the number of its entry.
  mapfile -t digits < <(printf '%s\n' "${folders[@]##*/}" | cut -c1 | sort -u)
  options+=("${digits[@]/#/--only=}")
fi
"$jclink" check --errors --used "${options[@]}" -- "$tree" >"$work/lines" || status=$?
[ "$status" -le 1 ] || exit "$status"
select_own <"$work/lines" >"$work/selected" || exit 3
cat "$work/selected" || exit 3
[ ! -s "$work/selected" ]
