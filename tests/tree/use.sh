#!/usr/bin/env bash
# Runs the command lines that README.md, docs/USE.md and docs/CONTRIBUTING.md show, and compares what comes with what they show.
#
# usage: tests/tree/use.sh PROGRAM     PROGRAM as `rt run` leaves it: crates/puzzles/out/puzzles
#
# It needs bash, tar, python3, node, curl, GNU parallel, xargs, man, chromium and, for /usr/bin/python3, PIL (of Debian: nodejs,
# curl, parallel, findutils, man-db, chromium, python3-pil), and installs nothing. The port 8018 must be free.
# Code stands in fenced blocks of three kinds, and nowhere else:
#   console       a session: `$ ` begins a command line, `> ` goes on with it, and all other lines are what it writes, to
#                 standard output and standard error together
#   python NAME   a file of that name; and so js NAME
#   text          what is only read
# Each document has a temporary folder, a copy of the repository without its `out` folders, and one shell, in which its lines
# run in order, so that `$?` and variables last.
# A line of a session that is run neither here nor named below, and a block of any other kind, is a failure.
set -u

# These lines are NOT run. Those with `rt` take more than a minute, some of them hours: they prove crates, or build the program.
# The page runs until it is stopped; docs/USE.md has it once more, with its end. The library's need a build: tests/library/library.py
# and tests/library/wasm.py run what they call. The others are of Dask: two run until they are stopped, and the job needs these two.
# tests/collect/dask_job.py runs that job.
dask='/usr/bin/python3 examples/dask/job.py --lines 25 tcp://127.0.0.1:8786'
not_run=(
    '(cd crates/puzzles && rt try -- solve pattern 5x1:1/1//1/1/2.2)'
    '(cd crates/puzzles && rt run --jobs 4 -- solve pattern 5x1:1/1//1/1/2.2)'
    '(cd crates/grid_core && rt check)'
    '(cd crates/grid_core && rt check --only grid_core::board::Board::has_empty_cell)'
    '(cd crates/grid_core && rt check --only grid_core::board::Board::has_empty_cell --allow-holes)'
    '(cd crates/core_tests && rt try --test -- sizes_have_bounds)'
    '(cd crates/core_tests && rt test)'
    'python/run page ~/.local/bin/puzzles'
    'sudo apt-get install python3-distributed'
    'dask scheduler --host 127.0.0.1 --port 8786 --no-dashboard'
    'dask worker tcp://127.0.0.1:8786 --nworkers 4 --nthreads 1 --no-dashboard'
    'library/build.py so'
    'cc -o solve examples/library/solve.c -I library -L library/out -lpuzzles -Wl,-rpath,"$PWD/library/out"'
    './solve pattern 5x1:1/1//1/1/2.2'
    'PYTHONPATH=python/src examples/library/solve.py pattern 5x1:1/1//1/1/2.2'
    'library/build.py c'
    'cc -O2 -o solve examples/library/solve.c library/out/puzzles.c -I library'
    'library/build.py wasm'
    'node examples/library/solve.mjs pattern 5x1:1/1//1/1/2.2'
    "$dask ids.txt solve pattern --budget 20000 > answers.txt"
    "$dask ids.txt grade pattern -- {} > grades.txt"
    "$dask seeds.txt generate tents 8x8 --seed {} > made.txt"
)
documents=(README.md docs/USE.md docs/CONTRIBUTING.md)
tools=(python3 node curl parallel xargs tar man chromium)

help() {
    sed -n '2,/^set/{s/^# \{0,1\}//p}' "$0"
}
case ${1-} in -h | --help) help; exit 0 ;; esac
[ $# -eq 1 ] || { help >&2; exit 2; }
[ -f "$1" ] && [ -x "$1" ] || { echo "use.sh: no program that can be run: $1" >&2; exit 2; }
program=$(realpath "$1")
top=$(realpath "$(dirname "$0")/../..")
for tool in "${tools[@]}"; do
    command -v "$tool" > /dev/null || { echo "needed and not found: $tool" >&2; exit 2; }
done
folder=$(mktemp -d)
trap 'rm -rf "$folder"' EXIT
ran=0 skipped=0 failed=0
seen=()

fail() {
    echo "$1"
    failed=$((failed + 1))
}

# Whether a command line is named as not run.
is_skipped() {
    local line
    for line in "${not_run[@]}"; do
        [ "$1" = "$line" ] && return 0
    done
    return 1
}

# Takes a line of a session: appends to commands, places, wanted.
take_line() {
    case $1 in
        '$ '*) commands+=("${1#'$ '}") places+=("$2") wanted+=('') ;;
        '> '*)
            if [ ${#commands[@]} -gt 0 ] && [ -z "${wanted[-1]}" ]; then
                commands[-1]+=$'\n'${1#'> '}
            else
                fail "$2: goes on with no command line: $1"
            fi
            ;;
        *)
            if [ "$opened" -lt "${#commands[@]}" ]; then
                wanted[-1]+=$1$'\n'
            else
                fail "$2: a line of a session before its first command: $1"
            fi
            ;;
    esac
}

# Reads a document: fills commands, places and wanted, and writes its files into the folder $2.
read_document() {
    local line number=0 kind='' opened=0
    commands=() places=() wanted=()
    while IFS= read -r line || [ -n "$line" ]; do
        number=$((number + 1))
        if [ -n "$kind" ]; then
            case $kind/$line in
                */'```') kind='' ;;
                console/*) take_line "$line" "$1:$number" ;;
                text/*) ;;
                *) printf '%s\n' "$line" >> "$2/$kind" ;;
            esac
            continue
        fi
        case $line in
            '```console') kind=console opened=${#commands[@]} ;;
            '```python '* | '```js '*) kind=${line#* } ;;
            '```text') kind=text ;;
            '```'*) fail "$1:$number: a block of no kind that is run: $line" ;;
            '    $ '* | *'`puzzles '* | *'`$ '*) fail "$1:$number: a command line outside of a block: $line" ;;
        esac
    done < "$top/$1"
    [ -z "$kind" ] || fail "$1: a block without its end"
}

# Runs the commands in one shell in the folder $1, each with its output in a file of $2 named by its number.
run_commands() {
    local at
    for at in "${!commands[@]}"; do
        printf 'kept=$?; exec > %q 2>&1; (exit $kept)\n' "$2/$at"
        is_skipped "${commands[at]}" || printf '%s\n' "${commands[at]}"
    done > "$2/session"
    (
        cd "$1" || exit 1
        export PATH=$folder/bin:$PATH:/usr/games HOME=$1 LC_ALL=C
        timeout 900 bash --noprofile --norc "$2/session" < /dev/null > /dev/null 2> "$2/errors"
    )
}

# Compares what each command wrote with what is shown.
compare() {
    local at
    for at in "${!commands[@]}"; do
        if is_skipped "${commands[at]}"; then
            seen+=("${commands[at]}") skipped=$((skipped + 1))
            continue
        fi
        ran=$((ran + 1))
        if [ ! -f "$1/$at" ]; then
            fail "${places[at]}: not run: ${commands[at]}"
        elif ! printf '%s' "${wanted[at]}" | cmp -s - "$1/$at"; then
            fail "${places[at]}: ${commands[at]}"
            diff <(printf '%s' "${wanted[at]}") "$1/$at" | head -20
        fi
    done
}

mkdir "$folder/bin"
cp "$program" "$folder/bin/puzzles"
for document in "${documents[@]}"; do
    place=$folder/$(basename "$document" .md)
    mkdir -p "$place/at" "$place/outputs"
    tar -C "$top" --exclude=./.git --exclude='./crates/*/out' -cf - . | tar -C "$place/at" -xf -
    mkdir -p "$place/at/crates/puzzles/out"
    cp "$program" "$place/at/crates/puzzles/out/puzzles"
    read_document "$document" "$place/at"
    run_commands "$place/at" "$place/outputs"
    compare "$place/outputs"
done
for line in "${not_run[@]}"; do
    [[ " ${seen[*]} " == *" $line "* ]] || fail "named as not run, and shown nowhere: $line"
    echo "not run: $line"
done
echo "$ran command lines run, $skipped not, $failed failures"
[ "$failed" -eq 0 ]
