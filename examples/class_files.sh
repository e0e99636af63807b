# shellcheck shell=bash
# Copies the class files of jars and folders. The other scripts of this folder source this file.

# Copies the class files of a jar or a folder into a folder, and creates that folder if it does not exist. Leaves out
# META-INF/versions and module-info.class, which need newer versions of Java. Status 11 of unzip means that a jar has no class
# files.
lay_out() {
  mkdir -p "$2" || exit 3
  if [ -d "$1" ]; then
    (cd -- "$1" && find . -name '*.class' -type f ! -path './META-INF/versions/*' ! -name module-info.class -print0 |
      tar -c --null -T - -f -) | tar -x -C "$2" -f -
  else
    local status=0
    unzip -q -o "$1" '*.class' -x 'META-INF/versions/*' module-info.class -d "$2" 2>/dev/null || status=$?
    [ "$status" -eq 0 ] || [ "$status" -eq 11 ]
  fi
}
