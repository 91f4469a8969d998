#!/usr/bin/env bash
# Prints the bytes that a sample's text stands for, once all of the text is known to stand for bytes. Other scripts call `input`.
#   bash samples/bytes.sh samples/worked.hex > target/worked.bin
# Each word of a line is an even number of hexadecimal digits; between words stand spaces or tabs, and behind `#` a comment. A carriage
# return at the end of a line, as in a file saved on Windows, is passed over. Any other text is refused with file and line, and nothing is
# printed. Exit status: 80 wrong use, 81 the file cannot be read, 82 its text is refused, 84 anything else that fails.
hex_digit='[0-9A-Fa-f]'
hex_word="($hex_digit$hex_digit)+"
hex_line=$'^[ \t]*('"$hex_word"$'[ \t]+)*('"$hex_word"$')?(#([^[:cntrl:]]|\t)*)?\r?$'

# What is wrong with a line that `hex_line` does not match.
mistake() {
    local word words
    read -ra words <<< "${1%%#*}"
    for word in "${words[@]}"; do
        if [[ ! $word =~ ^$hex_digit+$ ]]; then
            echo "'${word:0:40}' is not hexadecimal"
            return
        elif [[ ! $word =~ ^$hex_word$ ]]; then
            echo "'${word:0:40}' has an odd number of digits, ${#word}: one is missing, or one too many"
            return
        fi
    done
    echo "a control character in the comment"
}

# input FILE. The file is read once, into a copy. In a locale other than C, `.` would not match each byte, and a comment could end too soon.
input() (
    export LC_ALL=C
    copy=$(mktemp) || exit 84
    trap 'rm -f "$copy"' EXIT
    cat -- "$1" > "$copy" || exit 81
    grep -a -q -v -E "$hex_line" "$copy" && found=0 || found=$?
    case $found in
        0)
            line=$(grep -a -n -m 1 -v -E "$hex_line" "$copy" | sed 's/\r$//' | tr -c '[:print:]\t\n' '?')
            echo "$1:${line%%:*}: $(mistake "${line#*:}")" >&2
            exit 82
            ;;
        1) printf "$(sed 's/#.*//' "$copy" | tr -d ' \t\r\n' | sed 's/../\\x&/g')" || exit 84 ;;
        *) exit 84 ;;
    esac
)

if [ "${BASH_SOURCE[0]}" = "$0" ]; then
    if [ $# != 1 ]; then
        echo "usage: bash samples/bytes.sh SAMPLE" >&2
        exit 80
    fi
    input "$1"
fi
