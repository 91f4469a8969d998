#!/usr/bin/env bash
# What install.sh installs and refuses, and that C programs find the library by pkg-config alone. `rt` is a script here: needs the library,
# which staticlib.sh makes.
set -euo pipefail
cd "$(dirname "${BASH_SOURCE[0]}")/.."
source tests/compare.sh
repository=$PWD
work=$(mktemp -d)
trap 'rm -rf "$work"' EXIT
mkdir "$work/elsewhere"

# files FOLDER
files() {
    (cd "$1" && find . -type f -printf '%P %m\n' | sort)
}

version=$(sed -n 's/^#define GIRUVE_VERSION "\(.*\)"$/\1/p' include/giruve.h)
# shellcheck disable=SC2016 # for the script to expand
said='echo "rt was asked: $*, in $PWD"'
cat > "$work/files" << 'END_OF_FILES'
include/giruve.h 644
lib/libgiruve.a 644
lib/pkgconfig/giruve.pc 644
END_OF_FILES

# installs NAME FOLDER COMMAND .. A command, run elsewhere, installs below this folder and says so.
installs() {
    printf 'exit 0\n! rt was asked: lib, in %s/crates/giruve_c\ninstall.sh: giruve %s is installed below %s\n' \
        "$repository" "$version" "$2" > "$work/expected"
    compare "installs: $1" <(cd "$work/elsewhere" && umask 077 && outcome "$said" "${@:3}") "$work/expected"
    compare "files: $1" <(files "$2") "$work/files"
    cmp include/giruve.h "$2/include/giruve.h"
    cmp target/staticlib/libgiruve.a "$2/lib/libgiruve.a"
}

# builds NAME PKG_CONFIG_OPTION .. A C program is compiled with what pkg-config says, and nothing else of ours, and runs.
builds() {
    local program
    for program in worked:samples/worked.out adapter:examples/adapter.out; do
        # shellcheck disable=SC2046 # the words are options
        compare "builds: $1, ${program%%:*}" <(cc "examples/${program%%:*}.c" $(pkg-config "${@:2}" --cflags --libs giruve) \
            -o "$work/${program%%:*}" 2>&1 && "$work/${program%%:*}") "${program#*:}"
    done
    compare "version: $1" <(pkg-config "${@:2}" --modversion giruve) <(echo "$version")
}

install=(bash "$repository/install.sh")
installs "a prefix" "$work/prefix" "${install[@]}" "$work/prefix"
PKG_CONFIG_PATH=$work/prefix/lib/pkgconfig builds "a prefix"
installs "again, over the first" "$work/prefix" "${install[@]}" "$work/prefix"
installs "a prefix of this folder" "$work/elsewhere/here" "${install[@]}" here
PKG_CONFIG_PATH=$work/elsewhere/here/lib/pkgconfig builds "a prefix of this folder"
# The prefix is a folder of ours here too, so that nothing is written elsewhere even where DESTDIR is not heeded.
installs "DESTDIR" "$work/package$work/final" env DESTDIR="$work/package" "${install[@]}" "$work/final"
compare "DESTDIR: nothing in the prefix" <(ls "$work/final" 2> /dev/null) /dev/null
compare "DESTDIR: what giruve.pc names" \
    <(PKG_CONFIG_PATH=$work/package$work/final/lib/pkgconfig pkg-config --variable=prefix giruve) <(echo "$work/final")

# The first prefix is gone: what is built then comes from the place that it was moved to.
mv "$work/prefix" "$work/moved"
PKG_CONFIG_PATH=$work/moved/lib/pkgconfig builds "moved" --define-prefix

# ---- refused

printf 'exit 80\n! install.sh: usage: bash install.sh PREFIX\n' > "$work/usage"
compare "no prefix" <(cd "$work/elsewhere" && outcome "$said" "${install[@]}") "$work/usage"
compare "an empty prefix" <(cd "$work/elsewhere" && outcome "$said" "${install[@]}" "") "$work/usage"
compare "an option" <(cd "$work/elsewhere" && outcome "$said" "${install[@]}" --help) "$work/usage"
compare "a blank" <(cd "$work/elsewhere" && outcome "$said" "${install[@]}" "$work/a blank") - << END_OF_OUTCOME
exit 80
! install.sh: a prefix with a blank, which pkg-config's callers would part: $work/a blank
END_OF_OUTCOME
compare "two prefixes" <(cd "$work/elsewhere" && outcome "$said" "${install[@]}" "$work/first" "$work/second") "$work/usage"

compare "not proved" <(cd "$work/elsewhere" && outcome "echo not proved; exit 1" "${install[@]}" "$work/unproved") - << 'END_OF_OUTCOME'
exit 83
! not proved
! install.sh: the library is not proved or not built, and nothing is installed; what the prover says stands above
END_OF_OUTCOME
touch "$work/a_file"
compare "no folder" <(cd "$work/elsewhere" && outcome "$said" "${install[@]}" "$work/a_file" | head -n 1) <(echo "exit 84")
compare "nothing installed" <(cd "$work" && ls -d first second unproved a\ blank elsewhere/-* 2> /dev/null) /dev/null
exit "$failed"
