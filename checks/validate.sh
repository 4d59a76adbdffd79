#!/usr/bin/env bash
# wabt, which stems from other people, takes the compiled example as a valid module.
set -u
CDPATH='' cd -- "$(dirname -- "$0")/.." || exit 2
. checks/expect.bash || exit 2
command -v wasm-validate >/dev/null || skip "no wasm-validate of wabt"
take_proved render_program

expect 0 "" compile examples/through/through.cmajorpatch "$dir/through.wasm"
wasm-validate "$dir/through.wasm" || failed=1
exit "$failed"
