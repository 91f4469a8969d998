#!/usr/bin/env bash
# Runs the commands of every page, or of those that are named, and holds what they print to the pages (tests/pages). Needs every crate
# proved. The pages' own commands write the library in target/staticlib, and they write nothing outside target/ but what `rt` makes of a crate.
#   bash tests/pages.sh
#   bash tests/pages.sh docs/TRAINERS.md
set -euo pipefail
cd "$(dirname "${BASH_SOURCE[0]}")/.."

work=$(mktemp -d)
trap 'rm -rf "$work"' EXIT
rustc --test --edition 2021 tests/pages/main.rs -o "$work/tests"
"$work/tests" --quiet
rustc --edition 2021 tests/pages/main.rs -o "$work/pages"

# others ACTION ..: of the files that no page may change.
others() {
    find . \( -path ./target -o -path ./.git -o -path './crates/*/out' \) -prune -o -type f "$@"
}

pages=("$@")
if [ $# = 0 ]; then
    mapfile -t pages < <(others -name '*.md' -not -path './docs/requests/*' -printf '%P\n' | LC_ALL=C sort)
    rm -rf target/staticlib target/worked
fi

# `rt lib` checks giruve_c each time, and several pages have it: it is done once, and what it printed is shown again.
rt=$(command -v rt)
mkdir "$work/bin"
cat > "$work/bin/rt" << SCRIPT
#!/usr/bin/env bash
if [ "\$*" != lib ]; then
    exec "$rt" "\$@"
elif [ ! -f "$work/said" ]; then
    "$rt" "\$@" > "$work/says" 2>&1 || { status=\$?; cat "$work/says"; exit "\$status"; }
    mv "$work/says" "$work/said"
fi
cat "$work/said"
SCRIPT
chmod +x "$work/bin/rt"

others -exec sha256sum {} + | sort > "$work/before"
status=0
PATH=$work/bin:$PATH "$work/pages" "${pages[@]}" || status=$?
others -exec sha256sum {} + | sort > "$work/after"
if ! diff "$work/before" "$work/after"; then
    echo "a page's commands write outside target/ (< before, > after)"
    status=1
fi
exit "$status"
