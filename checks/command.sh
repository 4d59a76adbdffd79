#!/usr/bin/env bash
# The line of each status and its number, over real files, and that a command that is refused changes no file.
set -u
CDPATH='' cd -- "$(dirname -- "$0")/.." || exit 2
. checks/expect.bash || exit 2
take_proved render_program

cp examples/through/through.cmajorpatch examples/through/through.cmajor "$dir/" || exit 2
patch=$dir/through.cmajorpatch
out=$dir/out.wasm
mkdir "$dir/folder" "$dir/other"
cp "$patch" "$dir/other/"
printf 'processor P [[ main ]] { }\n' >"$dir/other/through.cmajor"
head -c 1048577 /dev/zero >"$dir/long.cmajorpatch"

expect 1 "usage"
expect 1 "usage" compile "$patch"
expect 1 "usage" compile "$patch" "$out" more
expect 1 "usage" compile "$patch" ""
expect 2 "absent $dir/none.cmajorpatch" compile "$dir/none.cmajorpatch" "$out"
expect 3 "read fault $dir/folder" compile "$dir/folder" "$out"
expect 4 "too big $dir/long.cmajorpatch" compile "$dir/long.cmajorpatch" "$out"
expect 12 "write fault $dir/none/out.wasm" compile "$patch" "$dir/none/out.wasm"
[ -e "$out" ] && differs "$out was made by a command that was refused"

# a line that can't be written leaves the status as it is
"$built" 2>/dev/full
[ $? -eq 1 ] || differs "a full error stream changes the status"
"$built" compile "$dir/none" "$out" 2>&-
[ $? -eq 2 ] || differs "a closed error stream changes the status"

printf 'what it held' >"$out"
expect 5 "refused NotYet $dir/other/through.cmajor:1:1" compile "$dir/other/through.cmajorpatch" "$out"
holds "$out" 'what it held'

# the second of two sources is refused under its own name, and the form may stand in either
echo '{"CmajorVersion":1,"ID":"x.p","source":["none.cmajor","two.cmajor"]}' >"$dir/two.cmajorpatch"
printf '// nothing\n' >"$dir/none.cmajor"
printf 'let a = 1.5;' >"$dir/two.cmajor"
expect 5 "refused Float $dir/two.cmajor:1:9" compile "$dir/two.cmajorpatch" "$out"
printf 'processor P\n' >"$dir/two.cmajor"
expect 5 "refused Grammar $dir/two.cmajor:2:1" compile "$dir/two.cmajorpatch" "$out"
holds "$out" 'what it held'
cp -- examples/through/through.cmajor "$dir/two.cmajor"
expect 0 "" compile "$dir/two.cmajorpatch" "$out"

expect 0 "" compile "$patch" "$out"
holds <(head -c 4 "$out" | tr '\0' 0) 0asm

# the compiled example puts the lines that it is to
script=examples/through/script.json
"$built" render "$patch" "$script" 10 >"$dir/lines" 2>"$dir/stderr" || differs "render: status $?"
same examples/through/lines.txt "$dir/lines"
holds "$dir/stderr" "listener 0 heard 3"
expect 1 "usage" render "$patch" "$script"
expect 1 "usage" render "$patch" "$script" 1048577
expect 1 "usage" render "$patch" "$script" 10 ""
expect 1 "usage" render "$patch" "$script" 10 state more
expect 2 "absent $dir/none.cmajorpatch" render "$dir/none.cmajorpatch" "$script" 10
expect 2 "absent $dir/none.json" render "$patch" "$dir/none.json" 10
expect 3 "read fault $dir/folder" render "$patch" "$dir/folder" 10
expect 4 "too big $dir/long.cmajorpatch" render "$dir/long.cmajorpatch" "$script" 10
expect 5 "refused NotYet $dir/other/through.cmajor:1:1" render "$dir/other/through.cmajorpatch" "$script" 10

# a state file of either version, and what is refused before the script is read
printf '{"parameters":{"old":1},"version":1}' >"$dir/state-1"
{ printf CMS2; head -c 20 /dev/zero; } >"$dir/state-2"
for state in "$dir/state-1" "$dir/state-2"; do
  "$built" render "$patch" "$script" 10 "$state" >"$dir/lines" 2>"$dir/stderr" || differs "render from $state: status $?"
  same examples/through/lines.txt "$dir/lines"
  holds "$dir/stderr" "listener 0 heard 3"
done
expect 2 "absent $dir/none" render "$patch" "$dir/none.json" 10 "$dir/none"
expect 2 "absent $dir/none.json" render "$patch" "$dir/none.json" 10 "$dir/state-1"
expect 3 "read fault $dir/folder" render "$patch" "$script" 10 "$dir/folder"
printf '[]' >"$dir/state"
expect 6 "state refused Shape Whole 0" render "$patch" "$dir/none.json" 10 "$dir/state"
printf '{"parameters":{"a":1,"b":true},"version":1}' >"$dir/state"
expect 6 "state refused Scalar Parameters 1" render "$patch" "$script" 10 "$dir/state"
printf '{"parameters":{},"version":2}' >"$dir/state"
expect 6 "state refused Version Whole 0" render "$patch" "$script" 10 "$dir/state"
head -c 3 "$dir/state-2" >"$dir/state"
expect 6 "state refused Json Whole 0" render "$patch" "$script" 10 "$dir/state"
head -c 23 "$dir/state-2" >"$dir/state"
expect 6 "state refused Shape Whole 0" render "$patch" "$script" 10 "$dir/state"
truncate -s 1048577 "$dir/state-1" "$dir/state-2"
expect 4 "too big $dir/state-1" render "$patch" "$script" 10 "$dir/state-1"
expect 6 "state refused Shape Whole 0" render "$patch" "$script" 10 "$dir/state-2"
truncate -s 67108865 "$dir/state-2"
expect 4 "too big $dir/state-2" render "$patch" "$script" 10 "$dir/state-2"
"$built" play "$out" "$script" 100 >"$dir/lines" 2>"$dir/stderr" || differs "play: status $?"
same examples/through/lines.txt "$dir/lines"
holds "$dir/stderr" "listener 0 heard 3"
expect 1 "usage" play "$out" "$script"
expect 1 "usage" play "$out" "$script" 72057594037927937
expect 2 "absent $dir/none.wasm" play "$dir/none.wasm" "$script" 100
expect 3 "read fault $dir/folder" play "$out" "$dir/folder" 100
printf '{"frames":1,"streams":{"out":[1]}}' >"$dir/script.json"
expect 7 "input refused Endpoint Streams 0" render "$patch" "$dir/script.json" 10
expect 7 "input refused Endpoint Streams 0" play "$out" "$dir/script.json" 100
head -c 122 "$out" >"$dir/short.wasm"
expect 8 "module refused Size 122" play "$dir/short.wasm" "$script" 100
expect 10 "steps spent init" play "$out" "$script" 0
expect 10 "steps spent frame 0" play "$out" "$script" 2
truncate -s 33554433 "$dir/long.wasm"
expect 4 "too big $dir/long.wasm" play "$dir/long.wasm" "$script" 100

# a stopped run: this module counts its frames at 8 in its memory, from 0 on after `init`
hex() { printf '%b' "$(printf '%s' "$1" | sed 's/../\\x&/g')"; }
counter() {
  hex 0061736D0100000001080260017F00600000020D0104686F737404656D697400000303020101050401010101071903066D656D6F727902000469
  hex 6E69740001056672616D6500020A25020900410041003602080B1900410041002802084101
  hex 6A36020841004100280208360204
  hex 0B001F06636D616A6F72010002000002696E00010100000100036F75740401010000
}
# state_of OUT COUNT GLOBALS: a state of the counter without parameters and current values, with these words at 4 and 8 in its
# memory, all in hexadecimal digits
state_of() {
  printf CMS2
  hex 00000000
  hex "$(printf '%02X' "$(stat -c %s "$dir/counter.wasm")")000000"
  cat "$dir/counter.wasm"
  hex 0000010000000000"$1$2"
  head -c 65524 /dev/zero
  hex "$3"00000000
}
counter >"$dir/counter.wasm"
echo '{"frames":2}' >"$dir/two.json"
echo '{"frames":0}' >"$dir/no.json"
"$built" play "$dir/counter.wasm" "$dir/two.json" 100 >"$dir/lines" 2>"$dir/stderr" || differs "play of the counter: status $?"
holds "$dir/lines" $'frame 0 out=1\nframe 1 out=2'
state_of 07000000 02000000 00000000 >"$dir/stopped"
state_of 06000000 06000000 00000000 >"$dir/later"
"$built" resume "$dir/stopped" "$dir/two.json" 100 >"$dir/lines" 2>"$dir/stderr" || differs "resume: status $?"
holds "$dir/lines" $'frame 0 out=3\nframe 1 out=4'
holds "$dir/stderr" "listener 0 heard 2"
"$built" resume "$dir/stopped" "$dir/no.json" 100 "$dir/same" >"$dir/lines" 2>"$dir/stderr" || differs "resume without frames: status $?"
holds "$dir/lines" ''
same "$dir/stopped" "$dir/same"
"$built" resume "$dir/stopped" "$dir/two.json" 100 "$dir/new" >"$dir/lines" 2>"$dir/stderr" || differs "resume to a new state: status $?"
"$built" resume "$dir/new" "$dir/two.json" 100 "$dir/new" >"$dir/lines" 2>"$dir/stderr" || differs "resume to the same file: status $?"
holds "$dir/lines" $'frame 0 out=5\nframe 1 out=6'
same "$dir/later" "$dir/new"
expect 1 "usage" resume "$dir/stopped" "$dir/two.json"
expect 1 "usage" resume "$dir/stopped" "$dir/two.json" 100 ""
expect 1 "usage" resume "$dir/stopped" "$dir/two.json" 72057594037927937
expect 2 "absent $dir/none" resume "$dir/none" "$dir/none.json" 100
expect 2 "absent $dir/none.json" resume "$dir/stopped" "$dir/none.json" 100
printf 'what it held' >"$dir/new"
printf '{"parameters":{},"version":1}' >"$dir/state"
expect 6 "state refused Version Whole 0" resume "$dir/state" "$dir/none.json" 100 "$dir/new"
size=$(stat -c %s "$dir/stopped")
for count in 4 100 138 $((size - 1)); do
  head -c "$count" "$dir/stopped" >"$dir/state"
  expect 6 "state refused Shape Whole 0" resume "$dir/state" "$dir/none.json" 100 "$dir/new"
done
head -c 3 "$dir/stopped" >"$dir/state"
expect 6 "state refused Json Whole 0" resume "$dir/state" "$dir/none.json" 100 "$dir/new"
{ cat "$dir/stopped"; printf x; } >"$dir/state"
expect 6 "state refused Shape Whole 0" resume "$dir/state" "$dir/none.json" 100 "$dir/new"
{ head -c $((size - 65548)) "$dir/stopped"; head -c 12 /dev/zero; } >"$dir/state"
expect 6 "state refused Snapshot Whole 0" resume "$dir/state" "$dir/none.json" 100 "$dir/new"
state_of 00000000 02000000 010000000000000000000000 >"$dir/state"
expect 6 "state refused Snapshot Whole 0" resume "$dir/state" "$dir/none.json" 100 "$dir/new"
{ printf CMS2; head -c 20 /dev/zero; } >"$dir/state"
expect 8 "module refused Header 0" resume "$dir/state" "$dir/none.json" 100 "$dir/new"
expect 7 "input refused Endpoint Streams 0" resume "$dir/stopped" "$dir/script.json" 100 "$dir/new"
expect 10 "steps spent frame 0" resume "$dir/stopped" "$dir/two.json" 5 "$dir/new"
holds "$dir/new" 'what it held'
"$built" resume "$dir/stopped" "$dir/two.json" 100 "$dir/none/new" >"$dir/lines" 2>"$dir/stderr"
[ $? -eq 12 ] || differs "a state that can't be written isn't told"
holds "$dir/stderr" "write fault $dir/none/new"
holds "$dir/lines" $'frame 0 out=3\nframe 1 out=4'
"$built" resume "$dir/stopped" "$dir/two.json" 100 "$dir/new" >/dev/full 2>"$dir/stderr"
[ $? -eq 12 ] || differs "a full device isn't told by resume"
holds "$dir/new" 'what it held'

# a full device and a closed stream take no line
"$built" render "$patch" "$script" 10 >/dev/full 2>"$dir/stderr"
[ $? -eq 12 ] || differs "a full device isn't told by render"
"$built" play "$out" "$script" 100 >/dev/full 2>"$dir/stderr"
[ $? -eq 12 ] || differs "a full device isn't told"
holds "$dir/stderr" "write fault out"

# a pipe that nobody reads takes no line either, and the program isn't ended by a signal
mkfifo "$dir/pipe"
exec 4<>"$dir/pipe" 5>"$dir/pipe" 4>&-
"$built" play "$out" "$script" 100 >&5 2>"$dir/stderr"
[ $? -eq 12 ] || differs "a pipe that nobody reads isn't told"
holds "$dir/stderr" "write fault out"
exec 5>&-
"$built" play "$out" "$script" 100 >&- 2>"$dir/stderr"
[ $? -eq 12 ] || differs "a closed stream isn't told"
exit "$failed"
