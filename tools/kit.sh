# Read by the scripts of this repository with `.`: where the kit is, what rt builds, and C programs over the library.
# A script sets `me`, its name in messages, and stands in the repository's folder when it builds.
# shellcheck shell=sh

# The crate that exports the calls for C, the static library that is made of it, and the session program as rt builds it.
crate=card_reader_c
library=target/staticlib/libcard_reader.a
session=crates/session/out/session

die() { printf '%s: %s\n' "${me:?}" "$*" >&2; exit 2; }

# Finds the kit, that of rt on the PATH or of RATTLE_HOME where it is set: home, its folder; tools, the compiler, loader and C
# library there; emulator, empty on x86-64, where the programs run by themselves.
find_kit() {
    home=${RATTLE_HOME:-}
    if [ -z "$home" ]; then
        home=$(command -v rt) || die "no rt on the PATH: the Rattle kit is needed, or RATTLE_HOME set to its folder"
        home=$(cd "$(dirname "$(readlink -f "$home")")/.." && pwd -P)
    fi
    tools=$home/toolchain
    loader=$tools/lib/ld-linux-x86-64.so.2
    [ -f "$loader" ] || die "the kit at $home has no loader for x86-64 programs"
    emulator=''
    [ "$(uname -m)" = x86_64 ] || find_emulator
    # The emulator listens to these, and no run is to depend on them.
    for word in $(env | sed -n 's/^\(QEMU_[A-Za-z0-9_]*\)=.*/\1/p'); do unset "$word"; done
}

# The kit's own emulator of x86-64, or Debian's.
find_emulator() {
    for emulator in "$tools/bin/qemu-x86_64" qemu-x86_64 qemu-x86_64-static; do
        ! command -v "$emulator" >/dev/null 2>&1 || return 0
    done
    die "x86-64 programs need an emulator on this machine, $(uname -m): the Debian package qemu-user has one"
}

# older FILE SOURCE..: whether the file is missing, or older than a source or than anything in a folder of sources.
older() {
    made=$1
    shift
    [ ! -f "$made" ] || [ -n "$(find "$@" -newer "$made" 2>/dev/null | head -n 1)" ]
}

# crates_in NAME: the crate and those below it, as its line of crates.txt has them.
crates_in() { sed -n "s/^\($1\)\( [^:]*\)\{0,1\}:/\1/p" crates.txt; }

# sources NAME: crates.txt, and the folders of sources of the crate and those below it.
sources() {
    echo crates.txt
    for name in $(crates_in "$1"); do
        for part in src specs proofs; do [ ! -d "crates/$name/$part" ] || echo "crates/$name/$part"; done
    done
}

# run_rt NAME WORDS..: runs rt in the crate's folder and shows its progress, or all that was printed where it fails.
run_rt() {
    folder=crates/$1
    shift
    said=$(mktemp)
    status=$({ { (cd "$folder" && exec "$home/bin/rt" "$@") 2>&1 </dev/null; echo $? >&3; } | tee "$said" | sed -n 's/^rt: /  /p' >&2; } 3>&1)
    [ "$status" -eq 0 ] || cat "$said" >&2
    rm -f "$said"
    [ "$status" -eq 0 ] || die "rt $* failed in $folder"
}

# The session program, where SESSION_PROGRAM names no other: proved and built when it is missing, or older than a source of a crate in it.
# rt run proves, builds and runs it, on an empty input here, for which it prints nothing. Of two scripts that need it at once the second
# waits for the first.
need_session() {
    [ -z "${SESSION_PROGRAM:-}" ] || return 0
    # shellcheck disable=SC2046
    set -- $(sources session)
    ! older "$session" "$@" || {
        flock 8
        if older "$session" "$@"; then
            find_kit
            echo "$me: proving and building the session program: some minutes where nothing is proved yet" >&2
            run_rt session run
            [ -f "$session" ] || die "rt run made no $session"
            touch "$session"
        fi
    } 8<crates.txt
}

# The static library: proved and built when it is missing, or older than a source of a crate in it. Of two scripts that need it at once
# the second waits for the first. need_library --proved: right behind rt ci, whose libraries are taken where they are there.
need_library() {
    [ -n "$(crates_in "$crate")" ] || die "crates.txt has no crate $crate"
    behind_ci=${1:-}
    # shellcheck disable=SC2046
    set -- $(sources "$crate")
    ! older "$library" "$@" || {
        flock 8
        if older "$library" "$@"; then
            made=crates/$crate/out/lib$crate.a
            if [ -z "$behind_ci" ] || ! over_proved; then
                echo "$me: proving and building $library: some minutes where nothing is proved yet" >&2
                run_rt "$crate" lib
            fi
            mkdir -p "${library%/*}"
            cp "$made" "$library.$$"
            mv "$library.$$" "$library"
        fi
    } 8<crates.txt
}

# The static library, proved and built over the libraries that rt ci proved in this checkout just now. Those lie in out/rlib with no stamp;
# where an rt check or rt lib of before has put its own there, or one is missing, this fails, and rt lib builds over what it kept.
over_proved() {
    set --
    for name in $(crates_in "$crate"); do
        [ "$name" != "$crate" ] || continue
        rlib=../$name/out/rlib
        [ -d "crates/$crate/$rlib/$name.rlib" ] && [ ! -e "crates/$crate/$rlib/stamp" ] || return 1
        set -- "$@" --extern "$name=$rlib/$name.rlib" -L "dependency=$rlib"
    done
    mkdir -p "${made%/*}"
    (cd "crates/$crate" && exec "$home/bin/rattle" build --crate-name "$crate" src/lib.rt --crate-type staticlib \
        --extern "std=$home/rlibs/std.rlib" -L "dependency=$home/rlibs" "$@" --antt-project "$home/rattle/logic/antt-project.json" \
        --logic-built "$home/logic_built" --toolchain "$tools" -o "out/lib$crate.a") </dev/null
}

# need_packages PACKAGE..: Debian's packages of these names, installed where they are missing.
need_packages() { tools/packages "$@" || die "$* are needed"; }

# Finds a compiler of C for x86-64, and installs it where there is none: cc, on x86-64 the machine's own gcc, on another
# processor Debian's cross compiler; with the C library and its headers.
find_cc() {
    if [ "$(uname -m)" = x86_64 ]; then
        cc=gcc
        set -- gcc libc6-dev
    else
        cc=x86_64-linux-gnu-gcc
        set -- gcc-x86-64-linux-gnu libc6-dev-amd64-cross
    fi
    echo '#include <stdlib.h>' | "$cc" -E -x c - >/dev/null 2>&1 || need_packages "$@"
}

# compile OBJECT SOURCE WORDS..: C99 for x86-64.
compile() {
    made=$1 source=$2
    shift 2
    "$cc" -std=c99 -O2 -Wall -Wextra -Wpedantic -Werror -Iinclude "$@" -c -o "$made" "$source" || die "$source was not compiled"
}

# The words that hand the headers of cc to another compiler.
headers() {
    printf '%s ' -nostdinc
    "$cc" -E -Wp,-v -x c /dev/null 2>&1 >/dev/null | sed -n '/^#include </,/^End/s/^ /-isystem /p' | tr '\n' ' '
}

# link PROGRAM FILE..: an x86-64 program with its C library in it, which tools/run-x86 runs. It is put in its place when it
# is whole, so that two builds at a time do no harm.
link() {
    made=$1
    shift
    "$cc" -static -o "$made.$$" "$@" || { rm -f "$made.$$"; die "$made was not linked"; }
    mv "$made.$$" "$made"
}
