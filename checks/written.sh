#!/usr/bin/env bash
# How the output is written: a regular file is lost only once the new one is whole, and anything else is written
# in place.
set -u
CDPATH='' cd -- "$(dirname -- "$0")/.." || exit 2
. checks/expect.bash || exit 2
take_proved render_program

cp examples/through/through.cmajorpatch examples/through/through.cmajor "$dir/" || exit 2
patch=$dir/through.cmajorpatch
folder=$dir/folder
mkdir "$folder" || exit 2
module=$dir/module.wasm
expect 0 "" compile "$patch" "$module"

# a regular file, whose permissions stay; its other name keeps what it held
out=$folder/out.wasm
printf 'what it held' >"$out"
chmod 640 "$out" && ln "$out" "$folder/other" || exit 2
expect 0 "" compile "$patch" "$out"
same "$out" "$module"
holds "$folder/other" 'what it held'
[ "$(stat -c %a "$out")" = 640 ] || differs "$out has lost its permissions"
only "$folder" other out.wasm

# names of files beside that are taken
printf 'not mine' >"$folder/.hezgrolk-0"
ln -s nowhere "$folder/.hezgrolk-1"
expect 0 "" compile "$patch" "$out"
holds "$folder/.hezgrolk-0" 'not mine'
only "$folder" .hezgrolk-0 .hezgrolk-1 other out.wasm
rm "$folder"/.hezgrolk-*

# a write that fails: no file may be longer than 0 bytes
printf 'what it held' >"$out"
limited() (
    trap '' XFSZ
    ulimit -f 0
    exec "$built" "$@"
)
expect_limited() {
    # the line goes to a pipe, since no file takes it
    local found line
    line=$(limited compile "$patch" "$1" 2>&1 >/dev/null)
    found=$?
    [ "$found" -eq 12 ] && [ "$line" = "write fault $1" ] || differs "a write past the limit: status $found, $line"
}
expect_limited "$out"
holds "$out" 'what it held'
only "$folder" other out.wasm
expect_limited "$folder/new.wasm"
only "$folder" other out.wasm

# a symbolic link is followed, and stays one
printf 'longer than a module: %0200d' 0 >"$folder/held"
ln -s held "$folder/link"
ln -s made "$folder/dangling"
for link in link dangling; do
    expect 0 "" compile "$patch" "$folder/$link"
    [ -L "$folder/$link" ] || differs "$folder/$link is no link any more"
    same "$folder/$link" "$module"
done
only "$folder" dangling held link made other out.wasm

# devices and pipes
expect 0 "" compile "$patch" /dev/null
[ -c /dev/null ] || differs "/dev/null is no device any more"
expect 12 "write fault /dev/full" compile "$patch" /dev/full
mkfifo "$folder/pipe" || exit 2
cat "$folder/pipe" >"$dir/piped" &
expect 0 "" compile "$patch" "$folder/pipe"
wait
same "$dir/piped" "$module"
[ -p "$folder/pipe" ] || differs "$folder/pipe is no pipe any more"
"$built" compile "$patch" /dev/stdout | cmp - "$module" || failed=1

# what can't be written
expect 12 "write fault $folder" compile "$patch" "$folder"
expect 12 "write fault $out/" compile "$patch" "$out/"
expect 12 "write fault $folder/none/" compile "$patch" "$folder/none/"

# a regular file that may not be written isn't replaced, though its folder may be changed
mkdir "$dir/others" && printf 'what it held' >"$dir/others/out.wasm" || exit 2
expect_unwritable() {
    expect 12 "write fault $dir/others/out.wasm" compile "$patch" "$dir/others/out.wasm"
    holds "$dir/others/out.wasm" 'what it held'
    only "$dir/others" out.wasm
}
if [ "$(id -u)" -ne 0 ]; then
    chmod 440 "$dir/others/out.wasm"
    expect_unwritable
elif command -v setpriv >/dev/null; then
    # root may write any file, so somebody else tries it
    cp "$built" "$dir/program" && chmod 755 "$dir" && chown 65534:65534 "$dir/others" || exit 2
    as_other() {
        setpriv --reuid 65534 --regid 65534 --clear-groups "$dir/program" "$@"
    }
    program=as_other
    expect_unwritable
    expect 0 "" compile "$patch" "$dir/others/new.wasm"
    same "$dir/others/new.wasm" "$module"
else
    skipped "root may write any file, and there is no setpriv"
fi
exit "$failed"
