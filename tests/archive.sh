#!/usr/bin/env bash
# What include/giruve.h says of itself and of target/staticlib/libgiruve.a: that it is C99 and C++11, its version and its names; which
# functions the archive has and calls, that it has no writable data, what it is for, that it may be linked anywhere; what a call needs of the
# stack, and that calls may run at once. Needs the archive.
set -euo pipefail
cd "$(dirname "${BASH_SOURCE[0]}")/.."
source tests/compare.sh
export LC_ALL=C
header=include/giruve.h
archive=target/staticlib/libgiruve.a
work=$(mktemp -d)
trap 'rm -rf "$work"' EXIT
warnings=(-Wall -Wextra -Wpedantic -Werror)

# ---- the header

printf '#include "giruve.h"\n#include "giruve.h"\nextern int unused;\n' | tee "$work/header.c" > "$work/header.cc"
compare "header: C99" <(cc -std=c99 "${warnings[@]}" -Iinclude -c "$work/header.c" -o "$work/header.o" 2>&1) /dev/null
if command -v g++ > /dev/null; then
    compare "header: C++11" <(g++ -std=c++11 "${warnings[@]}" -Iinclude -c "$work/header.cc" -o "$work/header.o" 2>&1) /dev/null
fi
cat > "$work/version.c" << 'END_OF_C'
#include <stdio.h>
#include "giruve.h"
int main(void)
{
    printf("%d.%d.%d\n", GIRUVE_VERSION_MAJOR, GIRUVE_VERSION_MINOR, GIRUVE_VERSION_PATCH);
    return 0;
}
END_OF_C
cc -std=c99 -Iinclude "$work/version.c" -o "$work/version"
compare "header: version" <("$work/version") <(sed -n 's/^#define GIRUVE_VERSION "\(.*\)"$/\1/p' "$header")

# Every name is held to the library by tests/names.c, but for the stack and the version, which are held to theirs here.
compare "header: names that are tested" <(sed -nE 's/^    (GIRUVE_[A-Z0-9_]+) = .*/\1/p' "$header" | grep -vE '_(STACK|VERSION_[A-Z]+)$' | sort) \
    <(grep -oE '\bGIRUVE_[A-Z0-9_]+\b' tests/names.c | sort -u)
mkdir -p target
cc -std=c99 "${warnings[@]}" -Iinclude tests/names.c "$archive" -o target/names
target/names || failed=1

# ---- the archive

# symbols NM_OPTION ..
symbols() {
    nm --format=posix "$@" "$archive" | awk 'NF > 1 { print $1 }' | sort -u
}

compare "archive: functions" <(symbols --extern-only --defined-only) <(grep -o '\bgiruve_[a-z_]*(' "$header" | tr -d '(' | sort -u)
compare "archive: functions called" <(symbols --undefined-only) \
    <(tr -d '\n*' < "$header" | tr -s ' ' | grep -o 'It calls .* and no other function' | sed 's/It calls //; s/ and no other function//; s/ and /\n/g')

# Code, and data that is only read: no symbol of another kind, and no section that is written.
compare "archive: kinds of symbols" <(nm --format=posix "$archive" | awk 'NF > 1 { print $2 }' | sort -u) <(printf '%s\n' T U r t)
compare "archive: sections that are loaded" <(objdump --section-headers "$archive" | sed -n 's/^ *//; s/RELOC, //; /ALLOC/p' | sort -u) - << 'END_OF_SECTIONS'
CONTENTS, ALLOC, LOAD, READONLY, CODE
CONTENTS, ALLOC, LOAD, READONLY, DATA
END_OF_SECTIONS

compare "archive: made for" <(readelf --file-header "$archive" | sed -nE 's/^ *(Class|OS\/ABI|Type|Machine): *//p') - << 'END_OF_HEADER'
ELF64
UNIX - System V
REL (Relocatable file)
Advanced Micro Devices X86-64
END_OF_HEADER

# Position independent: with -z text the linker refuses a shared library whose code would have to be changed where it is loaded.
compare "archive: in a shared library" \
    <(cc -shared -Wl,-z,text,--fatal-warnings -Wl,--whole-archive "$archive" -Wl,--no-whole-archive -o "$work/libshared.so" 2>&1) /dev/null
for kind in -pie -no-pie -static; do
    compare "archive: in a program, $kind" \
        <(cc -std=c99 "$kind" -Wl,--fatal-warnings -Iinclude examples/worked.c "$archive" -o "$work/worked" 2>&1 && "$work/worked") samples/worked.out
done

# ---- stack and threads

# Twice: with memmove and memset looked for before all calls, and at the first call of each, on the stack that is measured.
rustc -O --edition 2021 -C relro-level=off -C link-arg=-Wl,-z,lazy tests/stack.rs -L target/staticlib -l static=giruve -o target/stack
LD_BIND_NOW=1 target/stack "$header" tests/cases || failed=1
target/stack "$header" tests/cases || failed=1
cc -std=c99 -O1 "${warnings[@]}" -pthread -Iinclude tests/threads.c "$archive" -o target/threads
target/threads || failed=1
exit "$failed"
