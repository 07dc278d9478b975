#!/usr/bin/env bash
# Shows that two clones of one commit, at different paths, build the same program, library and module for browsers.
#
# usage: tests/tree/same_bytes.sh                clones this repository twice, proves and builds both, and compares
#        tests/tree/same_bytes.sh ONE OTHER      compares what is there: two clones that were built, or two files
#
# The first form takes what two first builds take (bench/README.md), or less if `rt` finds what another checkout kept. It needs
# the kit on the path and what library/build.py needs, and builds the last commit. In the second form two clones have to be of
# one commit and without changes. It prints the sha256 of each file. The status is 0 if the bytes are the same, 1 if some differ,
# and 2 if there is nothing to compare.
set -u

build_hours=3
files=(crates/puzzles/out/puzzles library/out/libpuzzles.so library/out/puzzles.wasm)

help() {
    sed -n '2,/^set/{s/^# \{0,1\}//p}' "$0"
}

stop() {
    echo "same_bytes.sh: $1" >&2
    exit 2
}

# The commit of a clone that has no changes.
commit_of() {
    [ -z "$(git --no-optional-locks -C "$1" status --porcelain)" ] || stop "a clone with changes: $1"
    git -C "$1" rev-parse HEAD || stop "no clone: $1"
}

# Proves and builds the program and the library in a clone.
build() {
    echo "building $1: minutes, and its notes in $1.log" >&2
    cd "$1/crates/puzzles" || stop "no crate of the program in $1"
    { timeout --foreground "${build_hours}h" rt run -- solve pattern 5x1:1/1//1/1/2.2 > /dev/null &&
        timeout --foreground "${build_hours}h" "$1/library/build.py" > /dev/null; } 2> "$1.log" ||
        { tail -n 3 "$1.log" >&2; stop "the build of $1 failed"; }
    cd "$top" || exit 2
}

# Compares two files.
compare() {
    local file
    for file in "$1" "$2"; do
        [ -f "$file" ] || stop "nothing that was built: $file"
    done
    [ "$(realpath "$1")" != "$(realpath "$2")" ] || stop "one and the same file: $1"
    sha256sum -- "$1" "$2"
    cmp -- "$1" "$2"
}

case ${1-} in -h | --help) help; exit 0 ;; esac
[ $# -eq 0 ] || [ $# -eq 2 ] || { help >&2; exit 2; }
if [ $# -eq 0 ]; then
    command -v rt > /dev/null || stop 'needed and not found: rt'
    top=$(realpath "$(dirname "$0")/../..")
    folder=$(mktemp -d)
    trap 'rm -rf "$folder"' EXIT
    trap 'exit 130' INT TERM
    set -- "$folder/one" "$folder/another/with-a-longer-path"
    mkdir "$folder/another"
    # both before the first is built, so that they are of one commit
    for clone in "$1" "$2"; do
        git clone --quiet "$top" "$clone" || stop "can't clone to $clone"
    done
    build "$1"
    build "$2"
fi
if [ -d "$1" ] && [ -d "$2" ]; then
    first=$(commit_of "$1") && second=$(commit_of "$2") || exit 2
    [ "$first" = "$second" ] || stop "two commits: $first, $second"
    echo "commit $first"
else
    files=('')
fi
differing=0
for file in "${files[@]}"; do
    compare "$1${file:+/$file}" "$2${file:+/$file}" || differing=1
done
[ $differing -eq 0 ] && echo 'the same bytes'
exit $differing
