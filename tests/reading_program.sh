#!/usr/bin/env bash
# Runs the program crates/reading/out/reading on every sample and compares what it prints with the lines beside the sample; then on an input of the
# greatest length, and on one that is a byte longer.
set -euo pipefail
cd "$(dirname "${BASH_SOURCE[0]}")/.."
source tests/compare.sh
reading=crates/reading/out/reading

# What a sample prints. All 4,096 recoveries of this one are alike, and only the lines behind them are written beside it.
expected() {
    if [ "$1" = samples/recovery_limit ]; then
        printf 'action 5A 000 01 001\n%.0s' {1..4096}
    fi
    cat "$1.out"
}

# A record of track 000/02 with so many zero bytes of data.
record() {
    printf "$(printf '\\x02\\x%02x\\x%02x\\0\\0\\0\\x02\\x%02x\\0\\x%02x\\x%02x' $((($2 + 8) / 256)) $((($2 + 8) % 256)) "$1" $(($2 / 256)) $(($2 % 256)))"
    head -c "$2" /dev/zero
}

# The worked example, with a track behind it that makes 60,000 bytes of it, or so many more.
long() {
    input samples/worked.hex
    printf '\x01\0\x05\0\0\0\0\x02'
    record 0 13000
    record 1 13000
    record 2 13000
    record 3 13000
    record 4 $((7799 + $1))
}

for sample in samples/*.hex; do
    name=${sample%.hex}
    compare "$name" <(printed "$reading" "$sample") <(expected "$name")
done
echo "tried: samples of \`reading\`: $(ls samples/*.hex | wc -l)"
compare "60,000 bytes" <(long 0 | "$reading") samples/worked.out
compare "60,001 bytes" <(long 1 | "$reading") samples/refused_1.out
exit "$failed"
