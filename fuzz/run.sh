#!/usr/bin/env bash
# Fuzzes the archive beside the Rust with libFuzzer, in one process.
#
#     fuzz/run.sh SECONDS            fuzzes so long, then runs all inputs kept on the archive as it is shipped
#     fuzz/run.sh --wrong [NAME]     wrong copies of the Rust in the archive's place: each must be found
#     fuzz/run.sh --show FILE        what case an input is
#
# Needs rt and cargo. Clang and its fuzzer's library are installed from Debian's packages where they are missing.
set -euo pipefail
here=$(cd "$(dirname "$0")" && pwd)
build=$here/build
corpus=$here/corpus
found=$here/found
# Common words take a byte of an input and others five: room for the longest rules of either.
longest=8192
cd "$here/.."

install_clang() {
    local library='/usr/lib/llvm-*/lib/clang/*/lib/linux/libclang_rt.fuzzer-x86_64.a'
    if ! command -v clang >/dev/null || ! compgen -G "$library" >/dev/null; then
        apt-get update && apt-get install -y clang
    fi
}

# A toolchain folder for rattle, whose clang is the kit's own with counters asked for at every branch.
counting_toolchain() { # KIT'S-TOOLCHAIN
    rm -rf "$build/toolchain"
    mkdir -p "$build/toolchain/bin"
    ln -s "$1/lib" "$build/toolchain/lib"
    ln -s "$1/bin/llvm-ar" "$1/bin/ld.lld" "$build/toolchain/bin/"
    printf '#!/bin/sh\nexec "%s" -fsanitize-coverage=inline-8bit-counters,pc-table,trace-cmp "$@"\n' "$1/bin/clang" \
        >"$build/toolchain/bin/clang"
    chmod +x "$build/toolchain/bin/clang"
}

# The archive as it is shipped, and the same proved code compiled with counters, as build/archive/libtulgarent.a.
build_archives() {
    local kit name words=() below=()
    tools/build.sh archive >"$build/rt.log" 2>&1 || { cat "$build/rt.log"; return 1; }
    # Compiling it again gives the same bytes, unless the code has changed.
    if cmp -s target/staticlib/libtulgarent.a "$build/archive/shipped"; then return; fi
    kit=$(cd "$(dirname "$(readlink -f "$(command -v rt)")")/.." && pwd)
    counting_toolchain "$kit/toolchain"
    for name in $(sed -n 's/#.*//; s/^tulgarent_c staticlib: *//p' crates.txt); do words+=(--extern "$name=crates/$name/out/rlib/$name.rlib"); done
    for name in crates/*/out/rlib; do below+=(-L "dependency=$name"); done
    mkdir -p "$build/archive"
    "$kit/bin/rattle" build --crate-name tulgarent_c crates/tulgarent_c/src/lib.rt --extern "std=$kit/rlibs/std.rlib" "${words[@]}" \
        -L "dependency=$kit/rlibs" "${below[@]}" --antt-project "$kit/rattle/logic/antt-project.json" \
        --logic-built "$kit/logic_built" --toolchain "$build/toolchain" --crate-type staticlib \
        -o "$build/archive/libtulgarent.a" >"$build/rattle.log" 2>&1 || { cat "$build/rattle.log"; return 1; }
    cp target/staticlib/libtulgarent.a "$build/archive/shipped"
}

# A fuzzer over the archive in a folder. The oracle has counters too, by rustc.sh.
build_fuzzer() { # NAME ARCHIVE-FOLDER
    TULGARENT_ARCHIVE=$2 RUSTC_WRAPPER=$here/rustc.sh CARGO_TARGET_DIR=$build/$1-target \
        cargo build --quiet --release -j1 --offline --manifest-path "$here/Cargo.toml" --lib
    clang -fsanitize=fuzzer "$build/$1-target/release/libfuzz.a" -o "$build/$1" -lm -ldl -lpthread
}

build_all() {
    install_clang
    mkdir -p "$build"
    build_archives
    build_fuzzer counted "$build/archive"
    build_fuzzer shipped "$PWD/target/staticlib"
}

tools() {
    cargo run --quiet --release -j1 --offline --manifest-path "$here/Cargo.toml" --bin tools -- "$@"
}

# The cases that compare draws are where the fuzzer begins.
seed() { # FOLDER
    mkdir -p "$1" "$found"
    tools seeds "$1" 25
}

# Runs all inputs kept once more: on the archive with counters, or on the one that is shipped.
replay() { # counted|shipped
    echo "the inputs kept, on the archive that is $1:"
    "$build/$1" -runs=0 -max_len=$longest -artifact_prefix="$found/" "$corpus" >"$build/$1.log" 2>&1 ||
        { cat "$build/$1.log"; return 1; }
    grep -E 'DONE|no difference' "$build/$1.log"
}

# Beside the shipped archive only the Rust has counters; the rest is the other archive's.
edges() {
    cat "$build/counted.log" "$build/shipped.log" | awk '
        /inline 8-bit counters/ { all[++n] = $5; gsub(/[^0-9]/, "", all[n]) }
        / DONE / || /\tDONE/ { for (i = 1; i < NF; i++) if ($i == "cov:") met[n] = $(i + 1) }
        END { print "edges met: " met[1] - met[2] " of " all[1] - all[2] " in the archive, " met[2] " of " all[2] " in the Rust" }'
}

fuzz() { # SECONDS
    build_all
    seed "$corpus"
    echo "fuzzing for $1 s, beginning with $(find "$corpus" -type f | wc -l) inputs"
    "$build/counted" -max_total_time="$1" -max_len=$longest -timeout=20 -print_final_stats=1 -artifact_prefix="$found/" "$corpus"
    replay counted
    replay shipped
    edges
    echo "no difference"
}

# Begins with nothing, so that what is found is the fuzzer's doing.
wrong() { # NAME
    local started=$EPOCHREALTIME
    if TULGARENT_WRONG=$1 "$build/counted" -max_total_time=600 -max_len=$longest -artifact_prefix="$found/wrong-$1-" \
        >"$build/wrong-$1.log" 2>&1; then
        echo "$1: NOT found in 600 s"
        return 1
    fi
    grep -q '^DIFFERENCE' "$build/wrong-$1.log" || { tail "$build/wrong-$1.log"; return 1; }
    echo "$1: found after $(awk "BEGIN { print $EPOCHREALTIME - $started }") s"
    sed -n '/^smallest/,/this side/p' "$build/wrong-$1.log"
}

case ${1:-} in
--wrong)
    build_all
    mkdir -p "$found"
    for name in ${2:-$(ls -d compare/wrong/*/ | xargs -n 1 basename)}; do wrong "$name"; done
    ;;
--show) tools show "$(realpath "${2:?a file}")" ;;
[1-9]*) fuzz "$1" ;;
*)
    sed -n '2,/^set/{/^#/s/^# \{0,1\}//p}' "$0"
    exit 2
    ;;
esac
