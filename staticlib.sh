#!/usr/bin/env bash
# Proves and builds the library for C and Rust, target/staticlib/libgiruve.a. Exit status: that of `rt lib`.
#   bash staticlib.sh
set -euo pipefail
cd "$(dirname "${BASH_SOURCE[0]}")"

(cd crates/giruve_c && rt lib)
install -D -m 644 crates/giruve_c/out/libgiruve_c.a target/staticlib/libgiruve.a
