#!/bin/sh
# Builds and runs the host side for x86-64, the processor of the archive, on a machine with another one.
#
#   host/cross.sh test                 every test, against the archive
#   host/cross.sh examples             the examples in Rust and those in C
#   host/cross.sh oracle [FOLDER]      the Rust files, as oracle/build.sh does
#   host/cross.sh compare [WORDS..]    the differential run
#   host/cross.sh bench [WORDS..]      the benchmark; times under an emulator are not those of a processor
#   host/cross.sh run PROGRAM [..]     any x86-64 program
#
# It needs a C and a C++ compiler for x86-64, a rustc that has the standard library of x86_64-unknown-linux-gnu, and
# qemu-x86_64. On Debian: gcc-x86-64-linux-gnu, g++-x86-64-linux-gnu, qemu-user; with rustup:
# rustup target add x86_64-unknown-linux-gnu; without, from Debian 13 on: dpkg --add-architecture amd64, then cargo, rustc
# and libstd-rust-dev:amd64. These variables name others: CC, CXX, RUSTC, RUSTDOC, QEMU (the emulator's command), SYSROOT
# (the folder that has lib64/ld-linux-x86-64.so.2; else the compiler is asked).
set -eu

here=$(cd "$(dirname "$0")" && pwd)
target=x86_64-unknown-linux-gnu
export CC="${CC:-x86_64-linux-gnu-gcc}" CXX="${CXX:-x86_64-linux-gnu-g++}" RUSTC="${RUSTC:-rustc}"
export RUSTDOC="${RUSTDOC:-${RUSTC%rustc}rustdoc}"

# The folder under which the programs find their loader: the one that the compiler's C library lies in.
loader() {
    if [ -e /lib64/ld-linux-x86-64.so.2 ]; then
        echo /
    else
        dirname "$(dirname "$(realpath "$("$CC" -print-file-name=ld-linux-x86-64.so.2)")")"
    fi
}
export FLUMEDRAC_RUN="${QEMU:-qemu-x86_64} -L ${SYSROOT:-$(loader)}"

export CARGO_BUILD_TARGET=$target
export CARGO_TARGET_X86_64_UNKNOWN_LINUX_GNU_LINKER="$CC"
export CARGO_TARGET_X86_64_UNKNOWN_LINUX_GNU_RUNNER="$FLUMEDRAC_RUN"

# The programs cannot start themselves anew under a memory limit, as they do elsewhere: it is set here.
export FLUMEDRAC_LIMITED=1
# shellcheck disable=SC3045
limited() { (ulimit -v 4000000 && "$@"); }

command=${1:-help}
[ $# -eq 0 ] || shift
# What is named by the user is named from where the user is.
case $command in
oracle) exec "$here/oracle/build.sh" "$@" ;;
run) exec $FLUMEDRAC_RUN "$@" ;;
test | examples | compare | bench) cd "$here" ;;
*)
    sed -n '2,/^set/s/^# \{0,1\}//p' "$here/cross.sh"
    exit 2
    ;;
esac

case $command in
test) cargo test --release "$@" ;;
examples)
    cargo run --release --example prism
    cargo run --release --example dual
    cargo run --release --example volume
    cargo run --release --example round
    printf 'rank=1\ncount=1\nsubs=\ncount=1\nsubs=0\n' | cargo run --release --example check
    printf 'rank=2\ncount=1\nsubs=\ncount=2\nsubs=0\nsubs=0\ncount=1\nsubs=0,1\n' > target/$target/dyad.txt
    cargo run --release --example build -- duoprism target/$target/dyad.txt target/$target/dyad.txt
    for example in cell text write dual body volume round; do
        "$CC" -std=c99 -Wall -Wextra -pedantic -Werror -I../include flumedrac/examples/$example.c \
            "${FLUMEDRAC_LIB:-../target/staticlib}/libflumedrac.a" -o target/$target/$example
        $FLUMEDRAC_RUN target/$target/$example
    done
    ;;
compare | bench)
    cargo build --release --bin "$command"
    limited $FLUMEDRAC_RUN target/$target/release/"$command" "$@"
    ;;
esac
