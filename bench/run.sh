#!/usr/bin/env bash
# Builds the library and the benchmark, and runs it.
set -euo pipefail
cd "$(dirname "${BASH_SOURCE[0]}")/.."

bash staticlib.sh
rustc -O -C codegen-units=1 --edition 2021 bench/main.rs -L target/staticlib -l static=giruve -o target/bench
target/bench
