#!/usr/bin/env bash
# Shows that a wrong lowerer is caught: copies of the Rust, each with one mistake, are compared with the Rust in the
# archive's place. The last line is `N of M wrong copies caught`; the status is 1 unless all are. Takes seconds, once built.
#
#     ./wrong.sh          all of them
#     ./wrong.sh NAME     one of them, by its name in src/wrong.rs
set -euo pipefail
cd "$(dirname "$0")"
exec cargo run --quiet --release -j1 --offline -- --wrong "$@"
