#!/usr/bin/env bash
# ./build fails where the proof fails, and ./hezgrolk takes the program that it made only while its sources, the
# kit and the program are the same to the byte. The toolchain is one that stands in here, so nothing is proved.
set -u
CDPATH='' cd -- "$(dirname -- "$0")/.." || exit 2
. checks/expect.bash || exit 2

# A repository with a few files of each kind, and a kit whose program says which it is.
repository=$dir/repository
source=$repository/crates/render_program/src/main.rt
mkdir -p "$repository/examples" "$repository/crates/render_program/src/out" "$repository/crates/low/specs" "$dir/bin" || exit 2
cp hezgrolk build sources.bash HANDLES crates.txt "$repository/" && cp -r examples/through "$repository/examples/" || exit 2
echo 'fn main' >"$source"
echo 'mod' >"$repository/crates/render_program/src/out/inner.rt"
echo 'pub mod A' >"$repository/crates/low/specs/Lib.antt"
printf 'kit 1\n' >"$dir/kit"
cat >"$dir/bin/rt" <<EOF
#!/usr/bin/env bash
case \$1 in
    version) cat "$dir/kit" ;;
    try) echo unproved >&2; exit 7 ;;
    run)
        if [ -e "$dir/edited" ]; then . "$dir/edited"; fi
        if [ -e "$dir/unproved" ]; then exit 1; fi
        mkdir -p out
        printf '#!/bin/sh\necho proved >&2\n' >out/render_program
        chmod +x out/render_program ;;
esac
EOF
chmod +x "$dir/bin/rt"
PATH=$dir/bin:$PATH
export CDPATH=$dir:/
program=$repository/hezgrolk

built() {
    "$repository/build" >"$dir/said" 2>&1 || differs "build failed: $(cat "$dir/said")"
    expect 0 proved
}

fails_to_build() {
    "$repository/build" >"$dir/said" 2>&1 && differs "build passed though $1"
    expect 7 unproved
}

expect 7 unproved
built

# an edit with an old date, which undone is none
cp -p "$source" "$dir/kept"
echo 'fn main2' >"$source"
touch -d '2001-01-01' "$source"
expect 7 unproved
cp -p "$dir/kept" "$source"
expect 0 proved

# other changes
for file in crates/low/specs/Lib.antt crates/render_program/src/out/inner.rt; do
    mv "$repository/$file" "$dir/moved"
    expect 7 unproved
    mv "$dir/moved" "$repository/$file"
done
mv "$source" "$repository/crates/render_program/src/other.rt"
expect 7 unproved
mv "$repository/crates/render_program/src/other.rt" "$source"
echo '# more' >>"$repository/crates.txt"
expect 7 unproved
built
echo 'kit 2' >"$dir/kit"
expect 7 unproved
built
printf '#!/bin/sh\necho other >&2\n' >"$repository/crates/render_program/out/render_program"
expect 7 unproved

# a build that fails, with an old program there
built
touch "$dir/unproved"
fails_to_build "the proof failed"
rm "$dir/unproved"
built
echo "echo more >>'$source'" >"$dir/edited"
fails_to_build "a source was edited meanwhile"
rm "$dir/edited"

# where there is no kit
if ! PATH=/usr/bin:/bin command -v rt >/dev/null; then
    built
    (PATH=/usr/bin:/bin expect 0 proved && exit "$failed") || failed=1
    echo >>"$source"
    PATH=/usr/bin:/bin "$program" 2>/dev/null
    [ $? -eq 127 ] || differs "something was run without a kit"
fi

# by way of a symbolic link
ln -s "$repository/build" "$dir/link"
(cd / && "$dir/link" >"$dir/said" 2>&1) || differs "build failed by way of a link"
expect 0 proved
exit "$failed"
