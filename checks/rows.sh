#!/usr/bin/env bash
# node, whose engine stems from other people, gives the answers that stand in the rows of modules, as far as it can.
set -u
CDPATH='' cd -- "$(dirname -- "$0")/.." || exit 2
. checks/expect.bash || exit 2
command -v node >/dev/null || skip "no node"

node checks/rows.mjs crates/module_rows/stdin || failed=1
exit "$failed"
