#!/usr/bin/env bash
# Runs the program crates/explain/out/explain on every sample and compares what it prints with the lines beside the sample; then on an input of the
# greatest length, and on one that is a byte longer.
set -euo pipefail
cd "$(dirname "${BASH_SOURCE[0]}")/.."
source tests/compare.sh
explain=crates/explain/out/explain

# A chain of so many zero bytes, no report, and an extent of so many.
zeros() {
    printf "$(printf '\\x30\\x%02x\\x%02x' $(($1 / 256)) $(($1 % 256)))"
    head -c "$1" /dev/zero
    printf "$(printf '\\x32\\x%02x\\x%02x' $(($2 / 256)) $(($2 % 256)))"
    head -c "$2" /dev/zero
}

# What a chain of zero bytes prints: no more than 256 CCWs.
slots() {
    for i in {0..255}; do
        printf 'ccw %04X: 00 unlisted command, address 000000, count 0000\n' $((i * 8))
    done
}

refusal='refused 1: are all areas and limits as they must be?'
for sample in samples/explain/*.hex; do
    name=${sample%.hex}
    compare "$name" <(printed "$explain" "$sample") "$name.out"
done
echo "tried: samples of \`explain\`: $(ls samples/explain/*.hex | wc -l)"
compare "60,000 bytes" <(zeros 59986 8 | "$explain") <(slots; echo "$refusal")
compare "60,001 bytes" <(zeros 59987 8 | "$explain") <(echo "$refusal")
compare "2,048 bytes of chain" <(zeros 2048 8 | "$explain") <(slots; echo 'refused 4: is the report well formed?')
compare "no input" <("$explain" < /dev/null) <(echo "$refusal")
exit "$failed"
