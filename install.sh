#!/usr/bin/env bash
# Proves and builds the library, and installs its header, its archive and giruve.pc, by which pkg-config finds both, below a folder:
#   bash install.sh PREFIX
#   DESTDIR=/tmp/package bash install.sh /usr/local
# With DESTDIR the files go below DESTDIR/PREFIX, and giruve.pc names PREFIX. Exit status: 0 installed; 80 wrong use, 83 the library is not
# proved or not built, 84 anything else that fails. Nothing is installed before the library is built.
set -Eeuo pipefail
trap 'exit 84' ERR

# fail STATUS WHAT
fail() {
    echo "install.sh: $2" >&2
    exit "$1"
}

if [ $# != 1 ] || [[ $1 = '' || $1 = -* ]]; then
    fail 80 "usage: bash install.sh PREFIX"
fi
prefix=$(realpath -m -- "$1")
if [[ $prefix = *[[:space:]]* ]]; then
    fail 80 "a prefix with a blank, which pkg-config's callers would part: $prefix"
fi
root=
if [ -n "${DESTDIR-}" ]; then
    root=$(realpath -m -- "$DESTDIR")
fi
cd "$(dirname "${BASH_SOURCE[0]}")"

bash staticlib.sh >&2 || fail 83 "the library is not proved or not built, and nothing is installed; what the prover says stands above"
version=$(sed -n 's/^#define GIRUVE_VERSION "\(.*\)"$/\1/p' include/giruve.h)

install -D -m 644 target/staticlib/libgiruve.a "$root$prefix/lib/libgiruve.a"
install -D -m 644 include/giruve.h "$root$prefix/include/giruve.h"
install -D -m 644 /dev/stdin "$root$prefix/lib/pkgconfig/giruve.pc" << PC
prefix=$prefix
includedir=\${prefix}/include
libdir=\${prefix}/lib

Name: giruve
Description: Finishes IBM 3330 disk reads that a correctable data check cut short
Version: $version
Cflags: -I\${includedir}
Libs: -L\${libdir} -lgiruve
PC
echo "install.sh: giruve $version is installed below $root$prefix"
