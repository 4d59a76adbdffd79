#!/usr/bin/env bash
# Times how the program reads, lexes and parses a patch of up to 1 MiB, beside `clang -fsyntax-only` on C of the same size and
# shape where clang is installed, all in one run: the least processor time of five runs each. The patches are well-formed and
# of another form than the one that is compiled, so the program ends with `refused NotYet` behind the parser.
#
# usage: bench/sources.sh
set -eu
CDPATH='' cd -- "$(dirname -- "$0")/.."
dir=$(mktemp -d)
trap 'rm -rf "$dir"' EXIT
./build render_program
program=crates/render_program/out/render_program
echo '{"CmajorVersion":1,"ID":"bench","source":"p.cmajor"}' >"$dir/p.cmajorpatch"

# least WORDS..: the least processor time of five runs, in seconds.
least() {
    local run best=
    for run in 1 2 3 4 5; do
        best=$(
            { TIMEFORMAT='%U %S'; time "$@" >"$dir/out" 2>&1 || true; } 2>&1 |
                awk -v best="$best" '{ t = $1 + $2; print (best == "" || t < best) ? t : best }'
        )
    done
    echo "$best"
}

printf '%-14s %9s %10s %10s %8s %8s\n' shape bytes hezgrolk clang ratio linear
for shape in declarations expressions nests; do
    before=
    for size in 16384 131072 1048576; do
        python3 bench/large_patch.py "$shape" "$size" "$dir/p.cmajor" "$dir/p.c"
        ours=$(least "$program" compile "$dir/p.cmajorpatch" "$dir/m.wasm")
        grep -q 'refused NotYet' "$dir/out" || { cat "$dir/out"; exit 1; }
        theirs=-
        if command -v clang >/dev/null; then
            theirs=$(least clang -fsyntax-only -w "$dir/p.c")
        fi
        # the last column: how much more time than bytes, from one size to the next
        awk -v shape="$shape" -v size="$size" -v ours="$ours" -v theirs="$theirs" -v before="$before" 'BEGIN {
            printf "%-14s %9d %10.3f %10s %8s %8s\n", shape, size, ours, theirs,
                (theirs > 0) ? sprintf("%.2f", ours / theirs) : "-", (before > 0) ? sprintf("%.2f", ours / before / 8) : "-" }'
        before=$ours
    done
done
