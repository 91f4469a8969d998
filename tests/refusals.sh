#!/usr/bin/env bash
# Holds each must-fail edit to what `rt ci` or `rt must-fail` said of it, which is in the file that is named: the edit must have been refused
# because a fact fails (tests/refusals). Where these words leave it open, the edit's crate is checked once more with it, in a copy, and the
# prover's own words tell. Before that, the test of this test: edits that are no edits (tests/refusals/bad), tried on a small crate, must each
# be reported, and so must an edit of which nothing is said.
#   bash tests/refusals.sh target/ci
set -euo pipefail
said=$(realpath -- "$1")
cd "$(dirname "${BASH_SOURCE[0]}")/.."
source tests/edits.sh
workers=2

work=$(mktemp -d)
trap 'rm -rf "$work"' EXIT
rustc --test --edition 2021 tests/refusals/main.rs -o "$work/tests"
"$work/tests" --quiet
rustc -O --edition 2021 tests/refusals/main.rs -o "$work/refusals"

# worker NUMBER: every open edit of the folder `$root` whose turn it is, in a copy of its own.
worker() {
    local at crate edit copy=$work/copy$1
    if [ "$1" -lt "${#open[@]}" ]; then
        copy_crates "$copy"
    fi
    for ((at = $1; at < ${#open[@]}; at += workers)); do
        crate=crates/${open[at]%%/*}
        edit=$root/$crate/must-fail/${open[at]#*/}.edit
        apply "$copy/$crate" "$edit"
        (cd "$copy/$crate" && rt check) > "$copy/log" 2>&1 || true
        "$work/refusals" log "$copy/log" > "$copy/why" || echo "must-fail ${open[at]}: $(cat "$copy/why")"
        restore "$copy/$crate" "$crate" "$edit"
    done > "$work/wrong$1"
}

# judged FOLDER SAID: tells each edit below a folder that was not refused by a fact, and how many edits there are.
judged() {
    local root=$1 all open wrong
    "$work/refusals" words "$1" "$2" > "$work/words"
    all=$(wc -l < "$work/words")
    mapfile -t open < <(sed -n 's/^open: //p' "$work/words")
    if [ "$1" = . ] && [ "${#open[@]}" -gt 0 ]; then
        # From here the copies take what is proved of the crates below.
        rt all check > "$work/checked" 2>&1 || { cat "$work/checked"; exit 1; }
    fi
    in_turn worker "$workers"
    wrong=$(sed -n 's/^wrong: /must-fail /p' "$work/words"; cat "$work"/wrong[0-9]*)
    if [ -n "$wrong" ]; then
        echo "$wrong"
        echo "must-fail: $(wc -l <<< "$wrong") of $all edits are not refused by a fact"
        return 1
    fi
    echo "must-fail: $all edits are refused by a fact, ${#open[@]} of them as checked here once more"
}

small=$work/small
mkdir -p "$small/crates"
cp -r crates/questions "$small/crates"
rm -rf "$small"/crates/questions/{out,must-fail}
mkdir "$small/crates/questions/must-fail"
cp tests/refusals/bad/*.edit "$small/crates/questions/must-fail"
echo "questions:" > "$small/crates.txt"
(cd "$small" && rt must-fail > said 2>&1) || true
cp "$small/crates/questions/must-fail/typo.edit" "$small/crates/questions/must-fail/no_words.edit"
judged "$small" "$small/said" > "$work/judged" || true
for edit in "$small"/crates/questions/must-fail/*.edit; do
    name=$(basename "$edit" .edit)
    if ! grep -q "^must-fail questions/$name: " "$work/judged"; then
        echo "tests/refusals/bad/$name.edit counts as an edit that is refused by a fact:"
        cat "$small/said" "$work/judged"
        exit 1
    fi
done
echo "must-fail: $(ls "$small/crates/questions/must-fail" | wc -l) edits that are none, each reported"

judged . "$said"
