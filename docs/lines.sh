#!/usr/bin/env bash
# Prints for each crate, in the order of crates.txt, its lines of code, of definitions and of proof, and its must-fail edits.
set -euo pipefail
cd "$(dirname "${BASH_SOURCE[0]}")/.."

# lines DIRECTORY ENDING
lines() {
    if [ -d "$1" ]; then find "$1" -name "*.$2" -exec cat {} + | wc -l; else echo 0; fi
}

# edits DIRECTORY
edits() {
    if [ -d "$1" ]; then find "$1" -name '*.edit' | wc -l; else echo 0; fi
}

row='%-20s %7s %12s %7s %6s\n'
printf "$row" crate code definitions proof edits
sums=(0 0 0 0)
while IFS=': ' read -r crate _; do
    counts=("$(lines "crates/$crate/src" rt)" "$(lines "crates/$crate/specs" antt)" "$(lines "crates/$crate/proofs" antt)"
        "$(edits "crates/$crate/must-fail")")
    printf "$row" "$crate" "${counts[@]}"
    for i in 0 1 2 3; do sums[i]=$((sums[i] + counts[i])); done
done < <(grep '^[a-z]' crates.txt)
printf "$row" all "${sums[@]}"
