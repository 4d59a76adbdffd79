#!/usr/bin/env bash
# Calls of the system that fail, which strace makes them do: an interrupted one is made again, and a failed sync,
# rename or change of permissions is a write fault after which the output holds what it held.
set -u
CDPATH='' cd -- "$(dirname -- "$0")/.." || exit 2
. checks/expect.bash || exit 2
take_proved render_program
command -v strace >/dev/null || skip "no strace"
strace -o /dev/null true 2>/dev/null || skip "strace may not trace here"

folder=$dir/folder
mkdir "$folder" && cp examples/through/through.cmajorpatch examples/through/through.cmajor "$dir/" || exit 2
patch=$dir/through.cmajorpatch
out=$folder/out.wasm
beside=$folder/.hezgrolk-0
module=$dir/module.wasm
expect 0 "" compile "$patch" "$module"

# with FILE FAULT WORDS..: runs the program where calls on that file fail as strace's FAULT says.
with() {
    local file=$1 fault=$2
    shift 2
    strace -f -o "$dir/trace" -P "$file" -e inject="$fault" "$built" "$@"
}
program=with

injected() {
    grep -aq INJECTED "$dir/trace" || differs "$1: no call failed"
}

# made_again FILE FAULT: the call is made again.
made_again() {
    rm -f -- "$out"
    expect 0 "" "$1" "$2" compile "$patch" "$out"
    injected "$1 $2"
    same "$out" "$module"
    only "$folder" out.wasm
}

for file in "$patch" "$dir/through.cmajor"; do
    made_again "$file" read:error=EINTR:when=1
    made_again "$file" read:error=EINTR:when=2
    made_again "$file" read:error=EINTR:when=1..5
done
made_again "$beside" write:error=EINTR:when=1..2
made_again "$beside" fsync:error=EINTR:when=1
expect 2 "absent $dir/none" "$dir/stderr" write:error=EINTR:when=1..3 compile "$dir/none" "$out"
injected "the error stream"

for fault in write:error=ENOSPC fsync:error=EIO rename:error=EIO fchmod:error=EPERM; do
    printf 'what it held' >"$out"
    expect 12 "write fault $out" "$beside" "$fault:when=1" compile "$patch" "$out"
    injected "$fault"
    holds "$out" 'what it held'
    only "$folder" out.wasm
done

# a file that a symbolic link leads to is synced too
ln -s "$dir/held" "$folder/link"
expect 12 "write fault $folder/link" "$dir/held" fsync:error=EIO compile "$patch" "$folder/link"

# a fault in reading
expect 3 "read fault $patch" "$patch" read:error=EIO compile "$patch" "$out"
expect 3 "read fault $dir/through.cmajor" "$dir/through.cmajor" read:error=EIO:when=2 compile "$patch" "$out"
exit "$failed"
