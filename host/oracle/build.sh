#!/bin/sh
# Builds the Rust files that Flumedrac is compared with: unchanged, by rustc alone, with stand-ins for their packages.
#
#   host/oracle/build.sh [FOLDER]
#
# FOLDER holds the files: as miratope-core/src/.. in a copy of their repository, or flat, as
# src--miratope-core--src--..txt. Without it $FLUMEDRAC_RUST is taken, or else shared/docs/src beside the project.
#
# RUSTC names another compiler, and CARGO_BUILD_TARGET another target, as they do for cargo.
#
# Makes host/target/oracle/liboracle_checked.rlib (overflow checks and debug assertions, for answers) and
# liboracle_optimised.rlib (for times), in host/target/TARGET/oracle for another target. The files are only linked to,
# never copied. Status 2: they were not found.
set -eu

here=$(cd "$(dirname "$0")" && pwd)
from=${1:-${FLUMEDRAC_RUST:-$here/../../../shared/docs/src}}
rustc=${RUSTC:-rustc}
target=${CARGO_BUILD_TARGET:-}
out=$here/../target/${target:+$target/}oracle
tree=$out/tree

# The place of one of the files.
place() {
    flat=src--miratope-core--src--$(echo "$1" | sed 's,/,--,g').txt
    for file in "$from/miratope-core/src/$1" "$from/$flat"; do
        if [ -f "$file" ]; then
            realpath "$file"
            return
        fi
    done
    echo "The Rust files are not in $from ($1 is missing): there is nothing to compare with." >&2
    echo "Name the folder of a copy of their repository: host/oracle/build.sh FOLDER" >&2
    exit 2
}

files="lib.rs abs/mod.rs abs/antiprism.rs abs/flag.rs abs/product.rs abs/ranked.rs abs/valid.rs"
for file in $files; do
    place "$file" > /dev/null
done

rm -rf "$out"
mkdir -p "$tree/abs"
for file in $files; do
    ln -s "$(place "$file")" "$tree/$file"
done
for empty in conc cox file float geometry group; do
    echo '//! Not needed here.' > "$tree/$empty.rs"
done

# compile NAME CRATE FILE OPTIONS..: one crate as a library, for the build that is called NAME.
compile() {
    name=$1 crate=$2 file=$3
    shift 3
    "$rustc" ${target:+--target "$target"} --edition 2021 --crate-type rlib --crate-name "$crate" \
        --out-dir "$out" -C metadata="$name" \
        -L dependency="$out" --cap-lints allow "$@" "$file"
}

# build NAME OPTIONS..: the stand-ins, the Rust files and the bridge, all with these options.
build() {
    name=$1
    shift
    for standin in vec_like rayon partitions; do
        compile "$name" $standin "$here/standins/$standin.rs" -C extra-filename="-$name" "$@"
    done
    compile "$name" miratope_core "$tree/lib.rs" -C extra-filename="-$name" "$@" \
        --extern vec_like="$out/libvec_like-$name.rlib" --extern rayon="$out/librayon-$name.rlib" \
        --extern partitions="$out/libpartitions-$name.rlib" --extern strum_macros="$out/libstrum_macros.so"
    compile "$name" "oracle_$name" "$here/bridge.rs" "$@" \
        --extern vec_like="$out/libvec_like-$name.rlib" --extern miratope_core="$out/libmiratope_core-$name.rlib"
}

"$rustc" --edition 2021 --crate-type proc-macro --crate-name strum_macros --out-dir "$out" \
    "$here/standins/strum_macros.rs"
build checked -C opt-level=2 -C overflow-checks=on -C debug-assertions=on
build optimised -C opt-level=3
echo "made liboracle_checked.rlib and liboracle_optimised.rlib in host/target/${target:+$target/}oracle from $from"
