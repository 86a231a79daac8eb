#!/bin/sh
# Makes the archive that C and Rust link: target/staticlib/libflumedrac.a, which is what the crate flumedrac_c builds.
set -e
cd "$(dirname "$0")/.."
(cd crates/flumedrac_c && rt lib)
mkdir -p target/staticlib
cp crates/flumedrac_c/out/libflumedrac_c.a target/staticlib/libflumedrac.a
