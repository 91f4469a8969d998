#!/usr/bin/env bash
# Proves every crate, builds library and programs, and runs every test but that of the text (tests/tidy.sh): the scripts of samples/; the
# commands of the pages, which write the library that further tests link; a recovery's time by the length of the record; the simulator's
# own; the hand-written cases of runs, of recoveries and of whole readings on simulator and library; the tables of docs/REFERENCE.md; library
# against simulator; the C examples; what the header says of the archive, and its installation; the programs on their samples; the edits of
# the definitions that the theorems must not survive; and whether docs/FIGURES.md tells how many inputs these were.
set -euo pipefail
cd "$(dirname "${BASH_SOURCE[0]}")/.."

mkdir -p target
rt all check | tee target/checked
# It tells what each crate assumes that it checks: nothing, but for the two programs, which name foreign functions of the kit.
diff <(grep -o 'axioms=[0-9]*' target/checked) <(printf 'axioms=4\n%.0s' reading explain)
for program in reading explain; do
    (cd "crates/$program" && rt run < stdin | cmp - stdout)
done
bash tests/first_hour.sh
bash tests/pages.sh
# The pages' commands built it.
target/bench in-place
rm -f target/tried
# It works in copies, on one processor or two; most tests below take one.
bash tests/theorem.sh > target/theorem 2>&1 &
theorem=$!
library=(-L target/staticlib -l static=giruve)
rustc --test --edition 2021 tests/simulator_tests.rs -o target/simulator_tests
target/simulator_tests --quiet
rustc --edition 2021 tests/run_cases.rs "${library[@]}" -o target/run_cases
target/run_cases tests/cases/run | tee -a target/tried
rustc --edition 2021 tests/recover_cases.rs "${library[@]}" -o target/recover_cases
target/recover_cases tests/cases/recover | tee -a target/tried
rustc --edition 2021 tests/reading_cases.rs "${library[@]}" -o target/reading_cases
target/reading_cases tests/cases/reading | tee -a target/tried
rustc -O --edition 2021 tests/reference.rs "${library[@]}" -o target/reference
target/reference docs/REFERENCE.md include/giruve.h
rustc -O --edition 2021 tests/differential/main.rs "${library[@]}" -o target/differential
target/differential | tee -a target/tried
c=(cc -std=c99 -Wall -Wextra -Wpedantic -Werror -Iinclude)
"${c[@]}" examples/worked.c target/staticlib/libgiruve.a -o target/worked
cmp <(target/worked) samples/worked.out
"${c[@]}" examples/adapter.c target/staticlib/libgiruve.a -o target/adapter
cmp <(target/adapter) examples/adapter.out
"${c[@]}" examples/model_11.c target/staticlib/libgiruve.a -o target/model_11
cmp <(target/model_11) examples/model_11.out
bash tests/archive.sh
bash tests/install.sh
bash tests/reading_program.sh | tee -a target/tried
bash tests/explain_program.sh | tee -a target/tried
if ! wait "$theorem"; then
    cat target/theorem
    exit 1
fi
tee -a target/tried < target/theorem
bash tests/inputs.sh
