# shellcheck shell=sh disable=SC2154
# Functions over MANIFEST files, for the scripts that choose, build, compare and release the program. POSIX sh; the caller
# sets `top`, the folder of the checkout.
#
# A MANIFEST describes the program beside it, a line for each field:
#
#     version VERSION
#     kit KIT            the line of `rt version`
#     sources SHA-256    of the sources that it was built from, as sources_sum prints it
#     program SHA-256    of the program itself
#
# dist/MANIFEST describes dist/x86_64-linux/jclink. crates/jclink/out/MANIFEST describes the checkout's own build.

# Raised when the program's output or its statuses change.
version=1.5
platform=x86_64-linux
released=$top/dist/$platform/jclink
built=$top/crates/jclink/out/jclink

# Prints the crates that the program is built from. In crates.txt each crate comes after those that it uses.
program_crates() {
  awk -F: '
    /^[a-z]/ { name[++count] = $1; uses[count] = $2 }
    END {
      is_used["jclink"] = 1
      for (at = count; at > 0; at--) {
        if (!(name[at] in is_used)) continue
        print name[at]
        split(uses[at], libraries, " ")
        for (each in libraries) is_used[libraries[each]] = 1
      }
    }' "$top/crates.txt"
}

# Prints the paths of the program's sources from `top`, sorted by bytes, each ended by a NUL.
source_files() (
  cd "$top" || exit
  {
    printf '%s\0' HANDLES crates.txt
    for crate in $(program_crates); do
      for part in src specs proofs; do
        [ ! -d "crates/$crate/$part" ] || find "crates/$crate/$part" -type f -print0
      done
    done
  } | LC_ALL=C sort -z
)

# Prints the SHA-256 sum of the list that `sha256sum` prints for these files.
sources_sum() (
  cd "$top" && source_files | xargs -0 sha256sum | file_sum -
)

# Prints the SHA-256 sum of a file.
file_sum() {
  sha256sum "$1" | cut -d ' ' -f 1
}

# Prints a field of a MANIFEST; nothing if there is none.
field() {
  sed -n "s/^$1 //p" "$2" 2>/dev/null
}

# Prints the MANIFEST of a program that was built from sources with this sum.
manifest() {
  printf 'version %s\nkit %s\nsources %s\nprogram %s\n' "$version" "$(rt version)" "$2" "$(file_sum "$1")"
}

# Succeeds if a program is there and the MANIFEST names its sum.
is_described() {
  [ -x "$1" ] && [ "$(field program "$2")" = "$(file_sum "$1")" ]
}

# Writes the MANIFEST of the checkout's own build, unless the sources have changed since their sum was taken.
describe_build() {
  if [ "$(sources_sum)" != "$1" ]; then
    echo 'jclink: the sources changed during the build' >&2
    return 1
  fi
  manifest "$built" "$1" >"$(dirname "$built")/MANIFEST"
}

# Says whether dist/ has the program that was just built, byte for byte. Fails if dist/ contradicts itself, or if it is of
# the same sources and kit and differs.
compare_with_dist() {
  ours=$(dirname "$built")/MANIFEST theirs=$top/dist/MANIFEST
  if ! is_described "$released" "$theirs"; then
    echo "jclink: dist/$platform/jclink is not the program that dist/MANIFEST describes"
    return 1
  elif [ "$(field sources "$ours")" != "$(field sources "$theirs")" ]; then
    echo 'jclink: dist/ was built from other sources, and is not compared'
  elif [ "$(field kit "$ours")" != "$(field kit "$theirs")" ]; then
    echo "jclink: dist/ was built with another kit, $(field kit "$theirs"), and is not compared"
  elif cmp -s "$built" "$released" && cmp -s "$ours" "$theirs"; then
    echo 'jclink: dist/ has this program, byte for byte'
  else
    echo 'jclink: dist/ differs from what the same sources and the same kit gave here'
    return 1
  fi
}
