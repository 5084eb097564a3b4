#!/bin/sh
# Runs rustc for cargo. The oracle gets counters at its branches, as libFuzzer reads them; nothing else does, so that inputs
# are kept for what they reach in the lowering and not in the machinery around it.
case "${CARGO_CRATE_NAME:-}" in
oracle)
    exec "$@" -Cpasses=sancov-module -Cllvm-args=-sanitizer-coverage-level=4 \
        -Cllvm-args=-sanitizer-coverage-inline-8bit-counters -Cllvm-args=-sanitizer-coverage-pc-table \
        -Cllvm-args=-sanitizer-coverage-trace-compares
    ;;
*) exec "$@" ;;
esac
