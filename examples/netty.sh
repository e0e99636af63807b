#!/usr/bin/env bash
# Shows which methods the classes of Netty name that Java 8 does not have.
#
#     netty.sh NETTY API
#
# NETTY is a jar, or a folder of jars or of class files. Jars of a folder count if their names begin with netty. For Debian's
# package, run `apt-get download libnetty-java` and `dpkg -x` it into a folder; NETTY is usr/share/java below that.
#
# API is the API of Java 8: a folder of class files, or a file of a JDK. The file is jre/lib/rt.jar of a JDK 8, or lib/ct.sym
# of a JDK of version 12 or later, for example Debian's openjdk-17-jdk-headless. From ct.sym, api.py makes class files.
#
# The script prints the number of class files, and how often each error occurs in classes of Netty. Then it prints the missing
# methods of java/nio, each with the number of errors that name it. It needs unzip, and python3 for ct.sym.
#
# Status 0: no class of Netty has an error. 1: one has. 2: a usage error. 3: the class files cannot be read or copied. 2 to 4
# and 70 are also the statuses of jclink. The environment's JCLINK may name the program.
set -u -o pipefail
export LC_ALL=C
here=$(dirname "$(readlink -f "$0")")
jclink=${JCLINK:-$here/../jclink}
. "$here/class_files.sh" || exit 3

if [ $# -ne 2 ]; then
  sed -n '4s/^#  *//p' "$0" >&2
  exit 2
fi
netty=$1 api=$2
work=$(mktemp -d) || exit 3
trap 'rm -rf "$work"' EXIT

fail() {
  echo "netty.sh: $1" >&2
  exit 3
}

# Copies the class files of a jar or a folder into a folder, or ends the script.
put() {
  local how=unpack
  [ ! -d "$1" ] || how=copy
  lay_out "$1" "$2" || fail "cannot $how $1"
}

count() {
  find "$1" -name '*.class' -type f | wc -l
}

mkdir "$work/netty" "$work/tree" || exit 3
if [ -d "$netty" ]; then
  put "$netty" "$work/netty"
  jars=$(find "$netty" -name 'netty*.jar' -type f | sort) || fail "cannot read $netty"
else
  jars=$netty
fi
while IFS= read -r jar; do
  [ -z "$jar" ] || put "$jar" "$work/netty"
done <<<"$jars"
[ -d "$work/netty/io/netty" ] || fail "no class of Netty in $netty"

case $api in
  *.sym) python3 "$here/api.py" 8 "$api" "$work/tree" || fail "no API of Java 8 in $api" ;;
  *) put "$api" "$work/tree" ;;
esac
[ -f "$work/tree/java/lang/Object.class" ] || fail "no API of Java 8 in $api"
echo "$(count "$work/netty") class files of Netty, $(count "$work/tree") of Java 8"
put "$work/netty" "$work/tree"

status=0
"$jclink" check --errors --only io/netty/ "$work/tree" >"$work/errors" || status=$?
[ "$status" -le 1 ] || exit "$status"
# Prints the error of each line, counted; then the missing methods.
sed -n -e 's/.*: unreadable \([1-8] [A-Z][a-zA-Z]*\).*/unreadable \1/p; t' -e 's/.*: \(format F[0-9]*\|code S[0-9]*\) [0-9]*$/\1/p; t' \
  -e 's/.* error \([1-8] [A-Z][a-zA-Z]*\) .*/error \1/p' "$work/errors" | sort | uniq -c
sed -n 's/.*: method \(java\/nio\/.*\) -> error 7 NoMethod .*/\1/p' "$work/errors" | sort | uniq -c
exit "$status"
