#!/usr/bin/env bash
# Times is_consistent, flatten, order and fill on programs that graph_rows generates, at several sizes, all in one run:
# the least processor time of nine. It also has the start of the process and the making of the program, which is linear.
# The last column is how many times longer it took than the row above, over how many times larger the program is: about
# 1 where time is linear, below 1 where the start of the process counts, and about 4 where time is quadratic.
#
# usage: bench/graphs.sh
set -eu
CDPATH='' cd -- "$(dirname -- "$0")/../crates/graph_rows"
echo "proving and building graph_rows"
rt run -- leaves 1 >/dev/null
program=out/graph_rows

# least NAME COUNT: the least processor time in milliseconds, of nine runs.
least() {
    local best='' took TIMEFORMAT='%3U %3S'
    for _ in 1 2 3 4 5 6 7 8 9; do
        took=$( { time "$program" "$1" "$2" >/dev/null 2>&1; } 2>&1 | awk '{ printf "%d", ($1 + $2) * 1000 + 0.5 }')
        if [ -z "$best" ] || [ "$took" -lt "$best" ]; then
            best=$took
        fi
    done
    echo "$best"
}

# rows NAME UNIT COUNT SIZE [COUNT SIZE]..: a row for each count, with what its size is in units.
rows() {
    local name=$1 unit=$2 before=0 size_before=0 took
    shift 2
    while [ $# -gt 0 ]; do
        took=$(least "$name" "$1")
        awk -v label="$name $1: $2 $unit" -v ms="$took" -v size="$2" -v before="$before" -v size_before="$size_before" '
            BEGIN {
                printf "%-40s %6d ms", label, ms
                if (before > 0) printf " %7.2f", (ms / before) / (size / size_before)
                printf "\n"
            }'
        before=$took size_before=$2
        shift 2
    done
}

rows chains chains 4096 4096 16384 16384 65536 65536
rows doublings chains 12 4096 14 16384 16 65536
rows endpoints chains 4096 4096 16384 16384 65536 65536
rows leaves leaves 256 256 1024 1024 4096 4096
rows line leaves 256 256 1024 1024 4096 4096
rows cycle leaves 256 256 1024 1024 4096 4096
rows connections connections 16384 16384 65536 65536 262144 262144
rows links connections 16384 16384 65536 65536 262144 262144
rows nested instances 1024 1024 4096 4096 16384 16384
rows ring graphs 1024 1024 4096 4096 16383 16383
