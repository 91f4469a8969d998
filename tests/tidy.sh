#!/usr/bin/env bash
# Holds the text of the repository to the rules of tests/tidy, all of them or those that are named; needs no proof.
#   bash tests/tidy.sh
#   bash tests/tidy.sh layers picture
set -euo pipefail
cd "$(dirname "${BASH_SOURCE[0]}")/.."

built=$(mktemp -d)
trap 'rm -rf "$built"' EXIT
rustc --test --edition 2021 tests/tidy/main.rs -o "$built/tests"
"$built/tests" --quiet
rustc -O --edition 2021 tests/tidy/main.rs -o "$built/tidy"
"$built/tidy" "$@"
