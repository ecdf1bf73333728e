# shellcheck shell=bash disable=SC2034
# Sourced. The toolchain, and so the archive and the programs, are for x86-64 Linux: what makes them, and what compiles C and
# C++ for them.

fail() {
    echo "FAILED: $*" >&2
    exit 1
}

need_rt() {
    command -v rt >/dev/null || fail "the Rattle toolchain (rt) is not on the PATH, and it proves and builds all that is run here"
}

# need COMMAND PACKAGE: installs the package if the command is not there.
need() {
    command -v "$1" >/dev/null && return
    install_package "$2" "$1 is missing"
    command -v "$1" >/dev/null || fail "$2 is installed and there is still no $1"
}

# The compiler, and the C library that a bare compiler package does not bring.
need_c() {
    need gcc gcc
    echo '#include <stdio.h>' | gcc -fsyntax-only -x c - 2>/dev/null || install_package libc6-dev "the C headers are missing"
}

install_package() { # PACKAGE WHY
    echo "installing $1: $2" >&2
    command -v apt-get >/dev/null || fail "$2, and there is no apt-get to install $1"
    DEBIAN_FRONTEND=noninteractive
    export DEBIAN_FRONTEND
    # one at a time, where tests run side by side
    (flock 9 && { apt-get -qq install -y "$1" || { apt-get -qq update && apt-get -qq install -y "$1"; }; }) 9<"${BASH_SOURCE[0]}" >/dev/null 2>&1 ||
        fail "$2, and apt-get could not install $1"
}

# fresh FILE: it stands, no source is younger than it and, if rt is there to name its kit, that kit made it. rt itself works in
# each crate's out/, and so changes the crate's folder.
fresh() {
    [ -f "$1" ] && [ ! crates.txt -nt "$1" ] || return 1
    [ -z "$(find crates -mindepth 2 \( -name out -o -name must-fail \) -prune -o -newer "$1" -print -quit)" ] || return 1
    command -v rt >/dev/null || return 0
    [ -f "$1.kit" ] && [ "$(<"$1.kit")" = "$(rt version)" ]
}

# Keeps what rt says in a file, and tells of each crate as it is proved.
follow() { # FILE
    local line crate=''
    while IFS= read -r line; do
        printf '%s\n' "$line" >&3
        case $line in
        'rt: chose --jobs '*) crate=${line##* } ;;
        'logic=proved '*) echo "$crate is proved" >&2 ;;
        esac
    done 3>"$1"
}

# taken CRATE BUILT FILE: what this kit has built in the crate's out/ becomes the file, with the kit's name in FILE.kit.
taken() {
    install -D "crates/$1/out/$2" "$3"
    rt version >"$3.kit"
}

# made CRATE BUILT FILE WHAT WORD: leaves the file, taken from the crate's out/ where `rt WORD` makes it if it is not fresh. All
# that is said is on standard error.
made() {
    local log=target/made.log
    fresh "$3" && return
    need_rt
    mkdir -p target
    # one at a time: what another command is making may be this very file
    exec 8>target/making
    flock 8
    if ! fresh "$3"; then
        echo "proving and building $4, once until a source or the kit changes: it takes minutes" >&2
        (cd "crates/$1" && rt "$5" </dev/null) 2>&1 | follow $log || {
            cat $log >&2
            fail "rt $5, in crates/$1"
        }
        [ -f "crates/$1/out/$2" ] || fail "rt $5 left no crates/$1/out/$2; make clean has it begin from nothing"
        taken "$1" "$2" "$3"
    fi
    exec 8>&-
}

# The archive of the C face.
archive() {
    ARCHIVE=target/staticlib/libpanel.a
    made panel libpanel.a "$ARCHIVE" "the library" lib
}

# program NAME: a program of the repository. rt builds one where it runs it: here on an empty input.
program() {
    made "$1" "$1" "target/bin/$1" "the program $1" run
}

# run_program NAME: runs it.
run_program() {
    program "$1"
    "target/bin/$1"
}
