#!/usr/bin/env bash
# The first hour with the repository: what samples/bytes.sh and samples/run.sh refuse, what they show and how they end. Needs every crate
# proved. The commands of the pages are run by tests/pages.sh.
set -euo pipefail
cd "$(dirname "${BASH_SOURCE[0]}")/.."
source tests/compare.sh
source samples/prove.sh
export LC_ALL=C
work=$(mktemp -d)
trap 'rm -rf "$work"' EXIT

proved='exit 0'
unproved='echo "rt: was asked: $*" >&2; exit 1'

# ---- text

# refuses NAME EDIT LINE REASON. The worked example with this edit is refused, by the converter and, before anything is proved, by run.sh.
refuses() {
    local sample="$work/$1.hex"
    sed "$2" samples/worked.hex > "$sample"
    printf 'exit 82\n! %s\n' "$sample:$3: $4" > "$work/expected"
    compare "refused by the converter: $1" <(outcome "$unproved" bash samples/bytes.sh "$sample") "$work/expected"
    compare "refused: $1" <(outcome "$unproved" bash samples/run.sh "$sample") "$work/expected"
}

odd='one is missing, or one too many'
refuses dropped_digit '$ s/D4/D/' 29 "'D1D2D3D' has an odd number of digits, 7: $odd"
refuses dropped_digit_of_a_length 's/^30 0028/30 028/' 3 "'028' has an odd number of digits, 3: $odd"
refuses two_dropped_digits 's/^\(C1C2C3C\|D1D2D3D\)4/\1/' 26 "'C1C2C3C' has an odd number of digits, 7: $odd"
refuses shifted_digit 's/^0000 0000 0001/0000 000 00001/' 10 "'000' has an odd number of digits, 3: $odd"
refuses digit_too_many 's/^00 01 00 /00 010 00 /' 18 "'010' has an odd number of digits, 3: $odd"
refuses letter_o 's/^31 000B/31 0O0B/' 9 "'0O0B' is not hexadecimal"
refuses prefix 's/^32 0008/32 0x0008/' 12 "'0x0008' is not hexadecimal"
refuses comment_without_its_sign 's/# chain/chain/' 3 "'chain' is not hexadecimal"
refuses byte_order_mark '1 s/^/\xEF\xBB\xBF/' 1 "'???' is not hexadecimal"
refuses zero_byte 's/^C1C2/C1\x00/' 26 "'C1?C3C4' is not hexadecimal"
refuses carriage_return_in_a_line 's/^C1C2/C1\rC2/' 26 "'C1?C2C3C4' is not hexadecimal"
refuses carriage_return_in_a_comment 's/# chain/#\r chain/' 3 "a control character in the comment"

# takes NAME EDIT. The worked example with this edit stands for the same bytes.
takes() {
    sed "$2" samples/worked.hex > "$work/$1.hex"
    compare "taken: $1" <(LC_ALL=C.UTF-8 bash samples/bytes.sh "$work/$1.hex" | od -v -t x1) <(od -v -t x1 crates/reading/stdin)
}

takes as_it_is ''
takes saved_on_windows 's/$/\r/'
takes lower_case 's/^[^#]*/\L&/'
takes tabs 's/^/ /; s/ /\t/g'
takes comment_close_by 's/ *#/#/'
takes foreign_letters 's/# /# \xE9 12 /'
takes one_line 's/ *#.*//; :next; N; s/ *#.*//; s/\n/ /; b next'

# ---- before anything is proved

compare "not proved" <(outcome "$unproved" bash samples/run.sh samples/worked.hex) - << 'END'
exit 83
! rt: was asked: run
! samples/run.sh: `reading` is not proved; what the prover says is in target/log/reading.out
END
compare "missing file" <(outcome "$unproved" bash samples/run.sh samples/wroked.hex) - << 'END'
exit 81
! cat: samples/wroked.hex: No such file or directory
END
compare "no file but a folder" <(outcome "$unproved" bash samples/run.sh samples) - << 'END'
exit 81
! cat: samples: Is a directory
END
printf 'exit 80\n! samples/run.sh: usage: bash samples/run.sh SAMPLE [reading|explain]\n' > "$work/usage"
compare "no sample" <(outcome "$unproved" bash samples/run.sh) "$work/usage"
compare "no such program" <(outcome "$unproved" bash samples/run.sh samples/worked.hex explian) "$work/usage"
compare "a word too many" <(outcome "$unproved" bash samples/run.sh samples/worked.hex reading explain) "$work/usage"

# ---- exit statuses

# ends SAMPLE STATUS
ends() {
    compare "exit status: $1" <(outcome "$proved" bash samples/run.sh "samples/$1.hex") <(echo "exit $2"; cat "samples/$1.out")
}

ends worked 0
ends corrected_only 0
ends refused_1 1
ends refused_2 2
ends refused_3 3
ends refused_5 5
ends limit 64
ends stopped_2 65
ends stopped_9 65
ends program_check 66
ends explain/t9 0
ends explain/t7 0
ends explain/refused_1_no_chain 1
ends explain/refused_4 4
ends explain/refused_5 5
ends explain/t4 6
ends explain/t2 7
ends explain/refused_8 8
ends explain/refused_9 9
compare "a sample of this folder" <(cd samples/explain && outcome "$proved" bash ../run.sh t9.hex) \
    <(echo "exit 0"; cat samples/explain/t9.out)
compare "a program by its name" <(outcome "$proved" bash samples/run.sh samples/worked.hex explain) - << 'END'
exit 1
refused 1: are all areas and limits as they must be?
END

# A repository of three crates, whose program is a script.
copy=$work/copy
mkdir -p "$copy/samples" "$copy"/crates/{ground,middle}/out/rlib "$copy/crates/reading/out"
stamps=("$copy"/crates/{ground,middle}/out/rlib/stamp "$copy/crates/reading/out/reading.stamp")
cp samples/*.sh "$copy/samples"
printf '# ground\nground:  # nothing\nother: ground\nmiddle: ground\n\nreading: middle io libc  # other\n' > "$copy/crates.txt"
touch "${stamps[@]}"

# answers NAME LINES EXPECTED
answers() {
    script "$copy/crates/reading/out/reading" "$2"
    compare "answer: $1" <(outcome "$proved" bash "$copy/samples/run.sh" samples/worked.hex) <(printf '%s\n' "$3")
}

answers "unit check" "echo end 000028 0E 00 0000" $'exit 0\nend 000028 0E 00 0000'
answers "incorrect length" "echo end 000028 0C 40 0001" $'exit 0\nend 000028 0C 40 0001'
answers "program check and incorrect length" "echo end 000028 00 60 0001" $'exit 66\nend 000028 00 60 0001'
answers "no text" "true" $'exit 84\n! samples/run.sh: `reading` printed no end'
answers "no end" "echo action 5A 000 01 001" $'exit 84\n! samples/run.sh: `reading` printed no end\naction 5A 000 01 001'
answers "a torn end" "echo end 000028 0C" $'exit 84\n! samples/run.sh: `reading` printed no end\nend 000028 0C'
answers "a refusal by no number" "echo refused" $'exit 84\n! samples/run.sh: `reading` printed no end\nrefused'
answers "a write that fails" "echo end 000028 0C 00 0000; echo full >&2" $'exit 84\n! samples/run.sh: `reading` failed: full'
answers "a program that fails" "echo end 000028 0C 00 0000; exit 1" $'exit 84\n! samples/run.sh: `reading` failed: '
answers "nothing but the bytes" "cmp - $PWD/crates/reading/stdin && echo end 000028 0C 00 0000" $'exit 0\nend 000028 0C 00 0000'
compare "answer: no room" <(outcome "$proved" bash -c 'bash samples/run.sh samples/worked.hex > /dev/full') - << 'END'
exit 84
! cat: write error: No space left on device
END

# ---- progress

rm "${stamps[@]:1}"
# The seconds that a crate takes are those between two lines.
cat > "$work/said" << 'END'
rt: middle: begins with what a check kept in /elsewhere/crates/middle
rt: chose --jobs 2 for middle
fn middle::two: proved
logic=proved functions=1 sum=0 native=nat,char,string
rt: chose --jobs 2 for reading
fn reading::main: proved
linked target=x86_64-unknown-linux-gnu files=out/reading.o
rt: running out/reading; to give it other input, run that file yourself
END
compare "progress" <(outcome "cat $work/said >&2" bash "$copy/samples/run.sh" samples/worked.hex | sed 's/([0-9] s)/(N s)/') - << 'END'
exit 0
! crates to prove for `reading`: 2, about 1 min (`rt try` in crates/reading runs it unproved, in seconds)
! 2 of 3 proved: middle (N s)
! 3 of 3 proved: reading (N s)
end 000028 0C 00 0000
END
cat > "$work/said" << 'END'
rt: chose --jobs 2 for middle
src/lib.rt:1:1: error: no
logic=not-proved
rt: the library middle did not build, so nothing above it was checked
END
compare "progress: not proved" \
    <(outcome "cat $work/said >&2; exit 1" bash "$copy/samples/run.sh" samples/worked.hex | sed 's/([0-9] s)/(N s)/') - << 'END'
exit 83
! crates to prove for `reading`: 2, about 1 min (`rt try` in crates/reading runs it unproved, in seconds)
! middle NOT PROVED (N s)
! rt: the library middle did not build, so nothing above it was checked
! samples/run.sh: `reading` is not proved; what the prover says is in target/log/reading.out
END
compare "progress: all that is said" "$copy/target/log/reading.out" "$work/said"
for program in reading explain; do
    compare "progress: crates of $program" <(crates_of "$program" | wc -l) <((cd "crates/$program" && rt check) | grep -cE '^(library|crate) ')
done
for jobs in 1 2 4; do
    RT_JOBS=$jobs minutes 45
done > "$work/minutes"
compare "progress: minutes" "$work/minutes" <(printf '%s\n' 8 5 5)
exit "$failed"
