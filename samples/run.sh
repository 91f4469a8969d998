#!/usr/bin/env bash
# Proves and builds a program and runs it on a sample: the program named behind the sample, or else `explain` on the samples of
# samples/explain and `reading` on all others. The sample's text is checked first.
#   bash samples/run.sh samples/worked.hex
#   bash samples/run.sh samples/explain/t9.hex
#   bash samples/run.sh my.hex explain
# Standard output has what the program prints, and nothing else. Exit status: 0 ended or answered; 1 to 9 refused by that question;
# 64 "limit", 65 "stopped", 66 program check; 80 wrong use, 81 the sample cannot be read, 82 its text is refused, 83 the program is not
# proved, 84 anything else that fails.
set -Eeuo pipefail
trap 'exit 84' ERR
repository=$(realpath "$(dirname "${BASH_SOURCE[0]}")/..")
source "$repository/samples/bytes.sh"
source "$repository/samples/prove.sh"

# fail STATUS WHAT
fail() {
    echo "samples/run.sh: $2" >&2
    exit "$1"
}

program=reading
if [ $# = 2 ]; then
    program=$2
elif [ $# = 1 ] && [ "$(basename "$(dirname "$(realpath -m -- "$1")")")" = explain ]; then
    program=explain
fi
case $#:$program in
    [12]:reading | [12]:explain) ;;
    *) fail 80 "usage: bash samples/run.sh SAMPLE [reading|explain]" ;;
esac

work=$(mktemp -d)
trap 'rm -rf "$work"' EXIT
input "$1" > "$work/bytes" || exit
cd "$repository"
prove "$program" || fail 83 "\`$program\` is not proved; what the prover says is in target/log/$program.out"

# The program's own status is 0 even where a read or a write failed; it says so on standard error. Only where it cannot, it is another.
if ! "crates/$program/out/$program" < "$work/bytes" > "$work/answer" 2> "$work/failure" || [ -s "$work/failure" ]; then
    fail 84 "\`$program\` failed: $(cat "$work/failure")"
fi
cat "$work/answer"

# The last line of these kinds says how it ended. Program check is bit 20 of the channel status.
ending=$(grep -E '^(action|repeat|refused|end|limit|stopped)' "$work/answer" | tail -n 1) || true
case "$program $ending" in
    *' refused '[1-9]*) exit "${ending:8:1}" ;;
    'reading limit '*) exit 64 ;;
    'reading stopped '*) exit 65 ;;
    'reading end '??????' '??' '[2367ABEF]?' '????) exit 66 ;;
    'reading end '??????' '??' '[014589CD]?' '????) exit 0 ;;
    'explain action '* | 'explain repeat: '*) exit 0 ;;
    *) fail 84 "\`$program\` printed no end" ;;
esac
