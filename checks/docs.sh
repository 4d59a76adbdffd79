#!/usr/bin/env bash
# The documents against the repository: files and headings that they name exist, examples stand in the files that
# they are from, definitions, calls and crates that they list are there, and no crate cites another's proofs but
# for those that docs/ARCHITECTURE.md offers.
set -u
cd "$(dirname "$0")/.." || exit 2
if ! command -v python3 >/dev/null; then
    echo "skipped: docs: no python3"
    exit 0
fi
python3 checks/docs.py
