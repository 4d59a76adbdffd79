#!/usr/bin/env bash
# wasm_copy over real files, of which the contracts say nothing: its lines, its statuses, and what it writes.
set -u
CDPATH='' cd -- "$(dirname -- "$0")/.." || exit 2
. checks/expect.bash || exit 2
take_proved wasm_copy

# A module with one function type, with its size and counts in more bytes than they need, and in the fewest.
printf '\0asm\1\0\0\0\1\207\0\201\0\140\200\200\0\0' >"$dir/long.wasm"
printf '\0asm\1\0\0\0\1\4\1\140\0\0' >"$dir/short.wasm"
printf '\0asm\2\0\0\0' >"$dir/version.wasm"
head -c 33554433 /dev/zero >"$dir/big.wasm"

expect 1 "usage: wasm_copy IN [OUT [check]]"
expect 1 "usage: wasm_copy IN [OUT [check]]" "$dir/long.wasm" "$dir/out.wasm" more
expect 1 "a name isn't UTF-8" "$dir/long.wasm" "$dir/"$'\xff'
expect 1 "a name isn't UTF-8" $'\xc3'
expect 1 "refused Header 4" "$dir/version.wasm"
expect 1 "refused Header 4" "$dir/version.wasm" "$dir/out.wasm"
expect 1 "too big $dir/big.wasm" "$dir/big.wasm" "$dir/out.wasm"
expect 1 "can't read $dir/none.wasm" "$dir/none.wasm" "$dir/out.wasm"
expect 1 "can't read $dir" "$dir" "$dir/out.wasm"
expect 1 "can't read $dir/a\\x0ab" "$dir/"$'a\nb'
[ -e "$dir/out.wasm" ] && differs "a file was made for a module that was refused"
expect 1 "can't write $dir/none\\x7f/out.wasm" "$dir/long.wasm" "$dir/none"$'\x7f/out.wasm'
expect 1 "can't write /dev/full" "$dir/long.wasm" /dev/full
expect 0 "" "$dir/long.wasm"
expect 0 "" "$dir/long.wasm" "$dir/out.wasm"
same "$dir/out.wasm" "$dir/short.wasm"

# Where it is checked, a module is copied only if it is valid. The import section of the other one stands at byte 19.
sed 's/emit/emut/' crates/wasm_copy/data/in.wasm >"$dir/import.wasm"
expect 1 "refused Interface 19" "$dir/import.wasm" "$dir/checked.wasm" check
[ -e "$dir/checked.wasm" ] && differs "a module that isn't valid was copied"
expect 0 "" "$dir/import.wasm" "$dir/checked.wasm"
expect 0 "" crates/wasm_copy/data/in.wasm "$dir/checked.wasm" check
expect 1 "usage: wasm_copy IN [OUT [check]]" "$dir/long.wasm" "$dir/checked.wasm" check more

# The longest file that is taken, of many functions in the shortest spelling.
if command -v python3 >/dev/null; then
    python3 bench/large_module.py 33500000 "$dir/large.wasm"
    expect 0 "" "$dir/large.wasm" "$dir/copy.wasm"
    same "$dir/large.wasm" "$dir/copy.wasm"

    # too little memory for what the file holds
    lacking() (
        ulimit -v 30000
        exec "$built" "$@"
    )
    program=lacking
    expect 1 "no memory" "$dir/large.wasm"
else
    skipped "no python3 makes the large module"
fi
exit "$failed"
