#!/usr/bin/env bash
# The JavaScript host: its own tests over modules made by hand, and then a run of the compiled example.
set -u
CDPATH='' cd -- "$(dirname -- "$0")/.." || exit 2
. checks/expect.bash || exit 2
command -v node >/dev/null || skip "no node"

node checks/host-selftest.mjs || failed=1
take_proved render_program
expect 0 "" compile examples/through/through.cmajorpatch "$dir/through.wasm"
node checks/listed-module.mjs >"$dir/listed.wasm" || failed=1
same "$dir/through.wasm" "$dir/listed.wasm"
node examples/host/run.mjs "$dir/through.wasm" 1 2 3 >"$dir/lines" || failed=1
printf 'frame %d out=%d\n' 0 1 1 2 2 3 | diff - "$dir/lines" || failed=1
exit "$failed"
