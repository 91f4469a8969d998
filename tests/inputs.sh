#!/usr/bin/env bash
# Holds the table of docs/FIGURES.md that ends its section "Inputs tried" to target/tried, where tests/run.sh keeps what the tests print:
# a row for each line `tried: WHAT: NUMBER`, in their order.
set -euo pipefail
cd "$(dirname "${BASH_SOURCE[0]}")/.."
source tests/compare.sh

told() {
    sed -n '/^## Inputs tried$/,/^## /p' docs/FIGURES.md | sed -n '/^|---/,/^$/s/^| .*/&/p'
}

# Thousands are parted by commas.
counted() {
    sed -n -E 's/^tried: (.*): ([0-9]+)$/| \1 | \2 |/p' target/tried | sed -E ':more; s/([0-9])([0-9]{3})(,| \|$)/\1,\2\3/; t more'
}

compare "docs/FIGURES.md: inputs tried" <(told) <(counted)
if [ -z "$(counted)" ]; then
    echo "target/tried tells of no input"
    failed=1
fi
exit "$failed"
