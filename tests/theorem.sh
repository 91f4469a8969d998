#!/usr/bin/env bash
# Edits of the definitions that make a theorem false, in a folder named by the theorem's crate: of demand 3, of which bytes of storage recovery
# changes, of the head that 10A goes by, of where 9 and 11 put the rest of a read, and of the actions besides these. Each is applied in a copy
# of the crates; then a law that the theorem rests on, or the theorem itself, must not be proved, and the errors up to the one that says so must
# say that facts fail (tests/refusals). The test of this test: the edits of tests/theorem/bad are none, and each must be reported.
set -euo pipefail
cd "$(dirname "${BASH_SOURCE[0]}")/.."
source tests/edits.sh

declare -A theorems=([demand_three]=DemandThree [recovery_storage]=Storage [head_reached]=Head [overflow_rest]=Whole [other_actions]=Other)
declare -A promises=([demand_three]="demand 3" [recovery_storage]="the promise about storage" [head_reached]="the promise about the head reached"
    [overflow_rest]="the promise about the rest of a read" [other_actions]="the promise about the other actions")
workers=2

work=$(mktemp -d)
trap 'rm -rf "$work"' EXIT
rustc -O --edition 2021 tests/refusals/main.rs -o "$work/refusals"

# What stands below the theorems is built for the copies to take.
for crate in "${!theorems[@]}"; do
    (cd "crates/$crate" && rt lib) > "$work/built" 2>&1 || { cat "$work/built"; exit 1; }
done

# refused COPY CRATE EDIT: whether the crate's theorem is refused with an edit, and where; the crates are as they were behind it.
refused() {
    local status=0
    if apply "$1" "$3"; then
        (cd "$1/crates/$2" && rt check) > "$1/log" 2>&1 || true
        "$work/refusals" theorem "$1" "crates/$2/proofs/${theorems[$2]}.antt" "$1/log" || status=$?
    else
        status=2
    fi
    restore "$1" . "$3"
    return $status
}

edits=(tests/theorem/{bad,demand_three,recovery_storage,head_reached,overflow_rest,other_actions}/*.edit)

# The theorem that an edit is of; those that are none are tried on demand 3.
crate_of() {
    local folder
    folder=$(basename "$(dirname "$1")")
    echo "${folder/#bad/demand_three}"
}

# worker NUMBER: every edit whose turn it is, in a copy of its own.
worker() {
    local copy=$work/copy$1 at status
    copy_crates "$copy"
    for ((at = $1; at < ${#edits[@]}; at += workers)); do
        status=0
        refused "$copy" "$(crate_of "${edits[at]}")" "${edits[at]}" > "$work/said$at" || status=$?
        echo "$status" > "$work/status$at"
    done
}

in_turn worker "$workers"

declare -A count
for at in "${!edits[@]}"; do
    edit=${edits[at]}
    said=$(cat "$work/said$at")
    case $edit:$(cat "$work/status$at") in
        tests/theorem/bad/*:0)
            echo "$edit counts as an edit that makes demand 3 false: $said"
            exit 1
            ;;
        tests/theorem/bad/*:1)
            echo "theorem: $(basename "$edit" .edit) is none, and reported" ;;
        *:0)
            echo "theorem: $(basename "$edit" .edit) $said"
            count[$(crate_of "$edit")]=$((${count[$(crate_of "$edit")]:-0} + 1))
            ;;
        *)
            echo "$edit: $said"
            exit 1
            ;;
    esac
done
for crate in demand_three recovery_storage head_reached overflow_rest other_actions; do
    echo "tried: edits of the definitions that make ${promises[$crate]} false: ${count[$crate]}"
done
