#!/usr/bin/env bash
# Builds what is proved: target/staticlib/libtulgarent.a, target/bin/lower and target/bin/line_reader. A crate that is not proved is proved first.
#
#     tools/build.sh              all of them
#     tools/build.sh archive      the archive alone
set -euo pipefail
cd "$(dirname "$0")/.."

# The archive under the name that its callers link.
archive() {
    (cd crates/tulgarent_c && rt lib)
    mkdir -p target/staticlib
    cp crates/tulgarent_c/out/libtulgarent_c.a target/staticlib/libtulgarent.a
}

# `rt run` leaves the program that it ran.
program() { # NAME
    (cd "crates/$1" && rt run <stdin >/dev/null)
    mkdir -p target/bin
    cp "crates/$1/out/$1" "target/bin/$1"
}

archive
if [ "${1:-}" != archive ]; then
    program lower
    program line_reader
fi
