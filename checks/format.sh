#!/usr/bin/env bash
# Every script of the repository is one that bash reads, and shellcheck finds nothing in it.
set -u
CDPATH='' cd -- "$(dirname -- "$0")/.." || exit 2
. checks/expect.bash || exit 2

scripts=()
while IFS= read -r -d '' file; do
    case $file in
        *.sh | *.bash) scripts+=("$file") ;;
        *)
            IFS= read -r -n 64 first <"$file"
            [[ $first =~ ^\#!.*sh$ ]] && scripts+=("$file")
            ;;
    esac
done < <(find . \( -name .git -o -path './crates/*/out' -o -name node_modules \) -prune -o -type f -print0 | LC_ALL=C sort -z)

[ "${#scripts[@]}" -gt 0 ] || differs "no script was found"
for file in "${scripts[@]}"; do
    bash -n -- "$file" || failed=1
    [[ $file == *.bash || -x $file || $file == ./checks/* || $file == ./bench/* ]] || differs "$file can't be run"
done
command -v shellcheck >/dev/null || skip "no shellcheck"
shellcheck --shell=bash --severity=warning --exclude=SC1090,SC1091,SC2034,SC2154 -- "${scripts[@]}" || failed=1
exit "$failed"
