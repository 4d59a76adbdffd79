# For build, hezgrolk, .ci/run and checks/, which set `top`: whether a program that stands in its crate's out/ was
# proved and built from the sources that stand here now. It is told by content, and not by time.

# The kit's identity, as `rt version` prints it from this file, which takes it longer.
kit() {
    local rt
    rt=$(command -v rt) && rt=$(readlink -f -- "$rt") || return
    cat -- "${rt%/bin/rt}/KIT-ID" 2>/dev/null || rt version
}

# The checksum of what proved programs are made from beside the kit: the list of crates, the allowed handles, and
# each file of code, definitions and proofs, with its name.
sources() {
    (
        set -o pipefail
        cd -- "${top:?}" || exit
        find crates.txt HANDLES crates -path 'crates/*/out' \! -path 'crates/*/*/out' -prune -o \
            \! -type d \( -name crates.txt -o -name HANDLES -o -name '*.rt' -o -name '*.antt' \) -print0 |
            LC_ALL=C sort -z | xargs -0 sha256sum | sha256sum
    )
}

# program_of NAME: where the program of that crate is built.
program_of() {
    printf '%s' "$top/crates/$1/out/$1"
}

# made_from NAME KIT SOURCES: what the program was made from, and its own checksum.
made_from() {
    local sum
    sum=$(sha256sum <"$(program_of "$1")") || return
    printf 'kit %s\nsources %s\nprogram %s\n' "$2" "$3" "$sum"
}

# stamp_program NAME KIT SOURCES: notes that the program was proved and built from them, unless they changed
# meanwhile.
stamp_program() {
    local program stamp
    program=$(program_of "$1")
    stamp=$program.sources
    rm -f -- "$stamp"
    if [ ! -x "$program" ] || [ "$(kit)" != "$2" ] || [ "$(sources)" != "$3" ]; then
        return 1
    fi
    made_from "$@" >"$stamp"
}

# is_current NAME: the program was made from the sources as they are, by the kit that is there, if one is.
is_current() {
    local stamp kit now
    stamp=$(program_of "$1").sources
    [ -f "$stamp" ] || return
    if command -v rt >/dev/null; then
        kit=$(kit) || return
    else
        kit=$(sed -n 's/^kit //p' "$stamp")
    fi
    now=$(sources) && [ "$(made_from "$1" "$kit" "$now")" = "$(cat -- "$stamp")" ]
}
