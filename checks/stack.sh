#!/usr/bin/env bash
# The deepest trees of seventeen kinds are read and dropped within 2 MiB of stack, and deeper ones are refused: a nest of each
# kind is made one level deeper at a time past the one at which it is refused.
set -u
CDPATH='' cd -- "$(dirname -- "$0")/.." || exit 2
. checks/expect.bash || exit 2
take_proved render_program

echo '{"CmajorVersion":1,"ID":"x.p","source":"p.cmajor"}' >"$dir/p.cmajorpatch"

# times COUNT TEXT
times() {
    local text
    printf -v text '%*s' "$1" ''
    printf '%s' "${text// /$2}"
}

# nest KIND COUNT: a file with so many levels of the kind inside one another.
nest() {
    case $1 in
    parentheses) echo "let a = $(times "$2" '(')1$(times "$2" ')');" ;;
    signs) echo "let a = $(times "$2" '- ')1;" ;;
    sums) echo "let a = 1$(times "$2" ' + 1');" ;;
    choices) echo "let a = $(times "$2" 'true ? 1 : ')1;" ;;
    calls) echo "let a = $(times "$2" 'f(')1$(times "$2" ')');" ;;
    casts) echo "let a = $(times "$2" 'int(')1$(times "$2" ')');" ;;
    selections) echo "let a = b$(times "$2" '.c');" ;;
    indices) echo "let a = b$(times "$2" '[b')$(times "$2" ']');" ;;
    blocks) echo "void f() { $(times "$2" '{ ')$(times "$2" '} ')}" ;;
    elses) echo "void f() { $(times "$2" 'if (a) ; else '); }" ;;
    ifs) echo "void f() { $(times "$2" 'if (a) '); }" ;;
    loops) echo "void f() { $(times "$2" 'loop (2) ')advance(); }" ;;
    whiles) echo "void f() { $(times "$2" 'while (a) '); }" ;;
    counters) echo "void f() { $(times "$2" 'for (wrap<4> i) '); }" ;;
    declared) echo "void f() { $(times "$2" 'for (int i = 0; ; ) '); }" ;;
    assigned) echo "void f() { $(times "$2" 'for (a = 0; ; ++a) '); }" ;;
    namespaces) echo "$(times "$2" 'namespace n { ')$(times "$2" '} ')" ;;
    esac
}

# cause: the cause of the refusal of the file, with 2 MiB of stack.
cause() {
    (
        ulimit -S -s 2048
        "$built" compile "$dir/p.cmajorpatch" "$dir/m.wasm" 2>&1
    ) | sed -n 's/^refused \([A-Za-z]*\) .*/\1/p'
}

for kind in parentheses signs sums choices calls casts selections indices blocks elses ifs loops whiles counters \
    declared assigned namespaces; do
    deepest=0
    for ((count = 100; count < 300; count++)); do
        nest "$kind" "$count" >"$dir/p.cmajor"
        found=$(cause)
        [ "$found" = NotYet ] || break
        deepest=$count
    done
    [ "$deepest" -gt 0 ] || differs "$kind: 100 levels are refused by: $found"
    [ "$found" = Grammar ] || differs "$kind: $count levels are refused by: $found"
    # far past the limit the file is refused at once
    nest "$kind" 50000 >"$dir/p.cmajor"
    [ "$(cause)" = Grammar ] || differs "$kind: 50,000 levels aren't refused as a fault of the grammar"
done
exit "$failed"
