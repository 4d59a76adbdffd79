#!/usr/bin/env bash
# Names on the command line go to the program byte for byte, and stand in a line so that it stays one.
set -u
CDPATH='' cd -- "$(dirname -- "$0")/.." || exit 2
. checks/expect.bash || exit 2
take_proved render_program

folder=$dir/folder
mkdir "$folder" && cp examples/through/through.cmajorpatch examples/through/through.cmajor "$folder/" && cd -- "$folder" || exit 2

# control bytes
expect 2 'absent a\x0ab\x09\x1f\x7f ~' compile $'a\nb\t\x1f\x7f ~' out.wasm
expect 12 'write fault no\x0dne/out\x01.wasm' compile through.cmajorpatch $'no\rne/out\x01.wasm'
mkdir $'new\nline' && cp through.cmajorpatch $'new\nline/'
expect 2 'absent new\x0aline/through.cmajor' compile $'new\nline/through.cmajorpatch' out.wasm
expect 2 'absent Ü € \n' compile 'Ü € \n' out.wasm

program=$top/hezgrolk

# names as they are given, from the folder that the command is given in
for name in -n '  two  words' $'one\ntwo\n' "*it's\$x"; do
    expect 0 "" compile through.cmajorpatch "$name"
    same "./$name" "./-n"
done
cp through.cmajorpatch ./-p
expect 0 "" compile -p ./again.wasm
same ./again.wasm ./-n

# words that aren't UTF-8
expect 1 usage compile $'\xff' out.wasm
program=$built
expect 1 usage compile through.cmajorpatch $'out\xc3.wasm'
expect 1 usage $'compile\x80' through.cmajorpatch out.wasm
expect 1 usage compile $'\xed\xa0\x80' out.wasm

# by way of a symbolic link, of a folder whose name isn't UTF-8, and with CDPATH set
mkdir -p "$dir/bin" "$dir/cd/crates/render_program" $'\xff' || exit 2
ln -s "$top/hezgrolk" "$dir/bin/link" && ln -s ../bin/link "$dir/cd/second" && ln -s "$top" $'\xff/top' || exit 2
export CDPATH=$dir/cd:$dir
for program in "$dir/bin/link" ../cd/second $'./\xff/top/hezgrolk'; do
    expect 2 "absent none.cmajorpatch" compile none.cmajorpatch out.wasm
    expect 0 "" compile through.cmajorpatch out.wasm
    same out.wasm ./-n
done
exit "$failed"
