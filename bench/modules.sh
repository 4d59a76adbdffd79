#!/usr/bin/env bash
# Times the reader and the writer of modules on one large module, beside `cat` and, where they are installed,
# wabt's tools, all in one run: seconds, and bytes a second.
#
# usage: bench/modules.sh [BYTES]     (16,000,000 where none are given)
set -eu
CDPATH='' cd -- "$(dirname -- "$0")/.."
size=${1:-16000000}
dir=$(mktemp -d)
trap 'rm -rf "$dir"' EXIT
python3 bench/large_module.py "$size" "$dir/in.wasm"
bytes=$(stat -c %s "$dir/in.wasm")

./build wasm_copy
copy=crates/wasm_copy/out/wasm_copy

row() {
    local label=$1 start end
    shift
    start=$(date +%s%N)
    "$@" >"$dir/out" 2>&1 || { echo "$label: failed"; head -3 "$dir/out"; return; }
    end=$(date +%s%N)
    awk -v label="$label" -v bytes="$bytes" -v ns=$((end - start)) \
        'BEGIN { printf "%-28s %8.3f s %14.0f bytes/s\n", label, ns / 1e9, bytes / (ns / 1e9) }'
}

echo "module of $bytes bytes"
row "cat" sh -c "cat '$dir/in.wasm' >'$dir/cat.wasm'"
row "wasm_copy (read)" "$copy" "$dir/in.wasm"
row "wasm_copy (read and write)" "$copy" "$dir/in.wasm" "$dir/copy.wasm"
cmp "$dir/in.wasm" "$dir/copy.wasm"
for tool in wasm-validate wasm2wat; do
    if command -v "$tool" >/dev/null; then
        row "$tool" "$tool" "$dir/in.wasm"
    else
        echo "$tool: not installed"
    fi
done
