#!/usr/bin/env bash
# Where there is no proved program, ./hezgrolk runs the unproved one of `rt try`: with the same answers, for files
# named as they are given. Where a proved program is there, it stands in for the unproved one, run as `rt try` runs
# it, since to make that takes half a minute.
set -u
CDPATH='' cd -- "$(dirname -- "$0")/.." || exit 2
. checks/expect.bash || exit 2
. ./sources.bash || exit 2
command -v rt >/dev/null || skip "no rt"

top=$PWD
if is_current render_program; then
    mkdir "$dir/bin" "$dir/elsewhere" || exit 2
    # it runs the program in a folder of its own with no environment, and takes no words but UTF-8
    cat >"$dir/bin/rt" <<EOF
#!/usr/bin/env bash
case "\$1 \$2" in
    "version ") echo kit ;;
    "try --")
        shift 2
        printf '%s' "\$*" | iconv -f UTF-8 -t UTF-8 >/dev/null || exit 101
        cd "$dir/elsewhere" || exit 2
        env -i "$(program_of render_program)" "\$@"
        status=\$?
        echo "checked: ended status=\$status" >&2
        exit \$status ;;
esac
EOF
    chmod +x "$dir/bin/rt"
    PATH=$dir/bin:$PATH
fi

# the sources alone
top=$dir/repository
folder=$dir/folder
mkdir "$top" "$folder" && cp hezgrolk sources.bash HANDLES crates.txt "$top/" || exit 2
for crate in crates/*; do
    mkdir -p "$top/$crate"
    cp -r "$crate/src" "$top/$crate/" || exit 2
done
cp examples/through/through.cmajorpatch "$folder/-p" && cp examples/through/through.cmajor "$folder/" || exit 2
cd -- "$folder" || exit 2
program=$top/hezgrolk

expect 1 usage compile -p $'out\xff'
# It reads the manifest and the source, compiles, and can't write. One run, since each takes a while.
expect 12 'write fault no ne\x0a/-out' compile -p $'no ne\n/-out'
grep -aq '^hezgrolk: there is no proved build' "$dir/stderr" || differs "a proved program was run"
only "$folder" -p through.cmajor
exit "$failed"
