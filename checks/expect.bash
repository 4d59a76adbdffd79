# For the checks over real files, which run in the repository's top folder. `dir` is a folder for what they make,
# `program` the one that is run, and `failed` becomes 1 where something differs.

dir=$(mktemp -d) || exit 2
trap 'rm -rf -- "$dir"' EXIT
failed=0

# skip WHY: ends the check, which couldn't be made. .ci/run collects these lines.
skip() {
    skipped "$1"
    exit "$failed"
}

# skipped WHY: a part of the check couldn't be made.
skipped() {
    local name=${0##*/}
    echo "skipped: ${name%.sh}: $1"
}

# take_proved NAME: makes `built` and `program` the proved program of a crate, or skips the check.
take_proved() {
    top=$PWD
    . ./sources.bash || exit 2
    is_current "$1" || skip "no proved build of $1 (./build $1 makes it)"
    built=$(program_of "$1")
    program=$built
}

differs() {
    echo "$1"
    failed=1
}

# expect STATUS LINE WORDS..: the number, the last line on standard error but for those about an unproved build
# (of the script hezgrolk and of `rt try`), and nothing on standard output.
expect() {
    local status=$1 line=$2 found last
    shift 2
    "$program" "$@" >"$dir/stdout" 2>"$dir/stderr"
    found=$?
    last=$(grep -av -e '^hezgrolk: ' -e '^checked: ' -e '^run=' "$dir/stderr" | tail -n 1)
    if [ "$found" -ne "$status" ] || [ "$last" != "$line" ] || [ -s "$dir/stdout" ]; then
        differs "${program##*/} $*: status $found, not $status with: $line"
        cat "$dir/stderr"
    fi
}

# holds FILE TEXT: what a file holds.
holds() {
    [ "$(cat -- "$1" 2>/dev/null)" = "$2" ] || differs "$1 doesn't hold: $2"
}

# same FILE FILE: the files hold the same bytes.
same() {
    cmp -- "$1" "$2" || failed=1
}

# only FOLDER FILES..: the files of a folder, in the order of their bytes.
only() {
    local folder=$1 found
    shift
    found=$(cd -- "$folder" && find . -mindepth 1 -printf '%P\n' | LC_ALL=C sort | paste -sd ' ')
    [ "$found" = "$*" ] || differs "$folder has: $found"
}
