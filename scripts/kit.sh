# Where the Rattle kit is, and how a program of it is run and built. Sourced, from any folder; what NEEDS lists must be there beside rt.
# Sets KIT and TOOLCHAIN; `run_x86 PROGRAM WORDS..` runs a program that rt made, or `link_x86` below, by the kit's own C library;
# `built NAME` has the program crates/NAME/out/NAME made, where it is not there or is of other sources.

need() { # need TOOL..: one clear line for all that is missing
    local tool missing=
    for tool in "$@"; do
        command -v "$tool" >/dev/null 2>&1 || missing="$missing $tool"
    done
    [ -z "$missing" ] || {
        echo "$(basename "$0"): not on this machine's PATH:$missing" >&2
        exit 1
    }
}

same_kit() { # same_kit FILE: a warning where this is another kit than the one that FILE names
    local here there
    here=$(rt version)
    there=$(cat "$1")
    [ "$here" = "$there" ] || echo "$(basename "$0"): warning: this is '$here', and the repository was proved with '$there'" >&2
}

need rt ${NEEDS-}
unset CDPATH
KIT=$(rt doc) || exit 1
KIT=$(dirname "$KIT")
TOOLCHAIN=$KIT/toolchain

# the words that run a program here: the kit's loader, by which it has the kit's C library
RUN_X86=("$TOOLCHAIN/lib/ld-linux-x86-64.so.2" --library-path "$TOOLCHAIN/lib")

run_x86() { "${RUN_X86[@]}" "$@"; }

# compile_x86 OUT.o SOURCE.c WORDS..: C for the machine that Rattle compiles for
compile_x86() {
    local out=$1 source=$2
    shift 2
    "$TOOLCHAIN/bin/clang" --target=x86_64-unknown-linux-gnu -c "$source" -o "$out" "$@"
}

# link_x86 OUT OBJECTS..: a program of them and the C library
link_x86() {
    local out=$1 lib=$TOOLCHAIN/lib
    shift
    "$TOOLCHAIN/bin/ld.lld" -pie -dynamic-linker "$lib/ld-linux-x86-64.so.2" -rpath "$lib" -o "$out" "$lib/Scrt1.o" "$lib/crti.o" "$lib/crtbeginS.o" "$@" "$lib/libc.so.6" "$lib/libc_nonshared.a" "$lib/libgcc.a" "$lib/crtendS.o" "$lib/crtn.o"
}

# sources: at the top of the repository, a sum of all that a proof goes by: the kit, and the crates' files
sources() {
    {
        rt version
        find crates crates.txt -type d -name out -prune -o -type f \( -name '*.rt' -o -name '*.antt' -o -name crates.txt \) -print0 | sort -z | xargs -0 sha256sum
    } | sha256sum
}

# made NAME SOURCES: at the top, notes that the program crates/NAME/out/NAME, as it now is, was proved and built of these sources
made() {
    mkdir -p target/built
    { echo "$2"; sha256sum <"crates/$1/out/$1"; } >"target/built/$1"
}

# built NAME: at the top. It is proved and built by `rt run` where it is not as `made` noted, and rt says why where that fails
built() {
    local name=$1 program=crates/$1/out/$1 now log
    now=$(sources)
    [ -x "$program" ] && [ "$(cat "target/built/$name" 2>/dev/null)" = "$(echo "$now"; sha256sum <"$program")" ] && return 0
    log=$(mktemp)
    rm -f "$program" "$program.stamp" "target/built/$name"
    # it is also run there, in its crate's folder, where it finds nothing: what it says, and its exit status, are not asked for
    (cd "crates/$name" && rt run </dev/null) >"$log" 2>&1 || true
    [ -x "$program" ] || {
        tail -n 20 "$log" >&2
        rm -f "$log"
        echo "$(basename "$0"): the program $name could not be built" >&2
        return 1
    }
    rm -f "$log"
    made "$name" "$now"
}
