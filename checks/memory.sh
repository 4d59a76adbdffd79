#!/usr/bin/env bash
# Want of memory while the words are read is told as such. The words are so long that among limits on the memory
# of the process, in steps below their length, is one that lets the program start and not keep them.
set -u
CDPATH='' cd -- "$(dirname -- "$0")/.." || exit 2
. checks/expect.bash || exit 2
command -v prlimit >/dev/null || skip "no prlimit of util-linux"

# more than the words themselves, which the system keeps as well
long=$(head -c 100000 /dev/zero | tr '\0' x)
words=("$long" "$long" "$long" "$long" "$long" "$long" "$long" "$long" "$long" "$long")

# lacks_memory PROGRAM STATUS: with some limit the program ends with this status and the line of want of memory,
# and with each limit it does that or doesn't start.
lacks_memory() {
    local limit line found seen=0
    for ((limit = 2048; limit < 65536; limit += 512)); do
        line=$(prlimit --as=$((limit * 1024)) "$1" "${words[@]}" 2>&1 >/dev/null)
        found=$?
        if [ "$found" -eq "$2" ] && [ "$line" = "no memory" ]; then
            seen=1
        elif [ "$found" -eq 1 ] && [ "${line:0:5}" = usage ]; then
            break
        elif [ "$found" -ne 127 ] && [ "$found" -lt 129 ]; then
            differs "$1 with $limit KiB: status $found with: ${line:0:200}"
        fi
    done
    [ "$seen" -eq 1 ] || differs "no limit makes $1 lack memory for its words"
}

take_proved render_program
lacks_memory "$built" 14
take_proved wasm_copy
lacks_memory "$built" 1
exit "$failed"
