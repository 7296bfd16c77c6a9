# Sourced from the repository's root: builds the judge, and C programs over the library, and runs them.

BUILT=target/judge
ARCHIVE=target/staticlib/librulebook.a

# need COMMAND PACKAGE: stops where the command is missing.
need() {
    command -v "$1" >/dev/null 2>&1 || { echo "$0: $1 is not installed; on Debian: apt-get install $2" >&2; exit 2; }
}

need_rt() {
    command -v rt >/dev/null 2>&1 || { echo "$0: the Rattle toolchain's command rt is not on the PATH" >&2; exit 2; }
}

# proved CRATE PATH FILE VERB: `rt VERB` proves the crate and builds FILE in its out/; where that is done it goes to PATH.
proved() {
    mkdir -p target/log "$(dirname "$2")"
    built=crates/$1/out/$3
    rm -f "$built"
    (cd "crates/$1" && rt "$4" </dev/null) >"target/log/$1" 2>&1 || true
    grep '^logic=' "target/log/$1" | tail -n 1 | grep -q '^logic=proved ' && [ -f "$built" ] || return 1
    cp "$built" "$2"
}

# A program is run once on no input, as `rt run` does.
build_program() {
    need_rt
    proved "$1" "target/bin/$1" "$1" run || { tail -n 20 "target/log/$1" >&2; echo "$0: crates/$1 is not proved" >&2; return 1; }
}

build_archive() {
    need_rt
    proved rulebook_c "$ARCHIVE" librulebook_c.a lib || { tail -n 20 target/log/rulebook_c >&2; echo "$0: crates/rulebook_c is not proved" >&2; return 1; }
}

build_judge() {
    need rustc rustc
    need cc "gcc libc6-dev"
    mkdir -p "$BUILT"
    [ -x "$BUILT/judge" ] && [ -z "$(find tests/judge -name '*.rs' -newer "$BUILT/judge")" ] || rustc -O --edition 2021 -o "$BUILT/judge" tests/judge/main.rs
}

judge() {
    "$BUILT/judge" "$@"
}

# The archive and the programs are x86-64 on every machine. On Arm the Rattle kit brings a compiler and a linker for them and
# an emulator.
on_arm() {
    [ "$(uname -m)" = aarch64 ]
}

set_kit() {
    need_rt
    kit=$(dirname "$(dirname "$(readlink -f "$(command -v rt)")")")
    KIT_BIN=$kit/on/$(uname -m)/toolchain/bin
    KIT_LIB=$kit/on/$(uname -m)/toolchain/lib
}

# build_x86 PROGRAM SOURCE..: C sources with the library's archive.
build_x86() {
    need cc "gcc libc6-dev"
    if on_arm; then
        set_kit
        cross_build "$@"
    else
        program=$1
        shift
        "${CC:-cc}" -std=c99 -O2 -Iinclude -Wl,-z,now -o "$program" "$@" "$ARCHIVE"
    fi
}

# The kit has no C headers. Those of the machine's own compiler serve: what the sources take from them is the same on both.
cross_build() {
    program=$1 objects=''
    shift
    for source; do
        object=$program.$(echo "${source%.c}" | tr / .).o
        "$KIT_BIN/clang" --target=x86_64-linux-gnu -std=c99 -O2 -fPIE -nostdinc -isystem "$(cc -print-file-name=include)" \
            -isystem "/usr/include/$(cc -dumpmachine)" -isystem /usr/include -Iinclude -c -o "$object" "$source"
        objects="$objects $object"
    done
    # shellcheck disable=SC2086
    "$KIT_BIN/ld.lld" -pie -z now -dynamic-linker ld-linux-x86-64.so.2 -o "$program" \
        "$KIT_LIB/Scrt1.o" "$KIT_LIB/crti.o" "$KIT_LIB/crtbeginS.o" $objects "$ARCHIVE" \
        "$KIT_LIB/libc.so.6" "$KIT_LIB/libc_nonshared.a" "$KIT_LIB/libgcc.a" "$KIT_LIB/crtendS.o" "$KIT_LIB/crtn.o"
}

# run_x86 PROGRAM
run_x86() {
    if on_arm; then
        set_kit
        "$KIT_BIN/qemu-x86_64" "$KIT_LIB/ld-linux-x86-64.so.2" --library-path "$KIT_LIB" "$1"
    else
        "$1"
    fi
}

build_driver() {
    mkdir -p "$BUILT"
    build_x86 "$BUILT/driver" tests/judge/driver.c
}

driver() {
    run_x86 "$BUILT/driver"
}

# stopped STATUS NAME: which request was the driver's last.
stopped() {
    at=$(($(wc -l <"$BUILT/$2.driver") + 1))
    echo "$0: the driver stopped with status $1 at request $at:"
    sed -n "${at}p" "$BUILT/$2.requests"
}

# against NAME: has the library answer NAME.requests and compares with NAME.replies. Replies that a driver left out count
# as differing.
against() {
    driver <"$BUILT/$1.requests" >"$BUILT/$1.driver" || stopped $? "$1"
    judge compare "$BUILT/$1.requests" "$BUILT/$1.replies" "$BUILT/$1.driver"
}
