#!/bin/bash
# Tries the mistakes in tools/refused/: the compiler must refuse each with the one error that its text names as expected,
# and must prove its mended twin. Each text stands in for a crate's lib.rt, in a copy of the repository that is removed.
# In a clone where nothing is built yet, the libraries are proved first.
set -euo pipefail
cd "$(dirname "${BASH_SOURCE[0]}")/.."
copy=$(mktemp -d)
log=$copy/log
trap 'rm -rf "$copy"' EXIT

fail() {
    echo "$1" >&2
    cat "$log" >&2
    exit 1
}

# The libraries are built here, where that is kept, and copied as built.
(cd crates/loading && rt lib) >"$log" 2>&1 || fail "crates/loading: no library"
tar -c --exclude=incremental crates.txt crates | tar -x -C "$copy"
echo 'misuse: books loading' >>"$copy/crates.txt"
mkdir -p "$copy/crates/misuse/src"

# Whether a text is proved, as the lib.rt of a crate.
is_proved() {
    cp "$1" "$copy/crates/misuse/src/lib.rt"
    (cd "$copy/crates/misuse" && rt check) >"$log" 2>&1
}

for mistake in tools/refused/*.txt; do
    [[ $mistake != *_mended.txt ]] || continue
    mended=${mistake%.txt}_mended.txt
    expected=$(sed -n 's|^// expected: ||p' "$mistake")
    ! is_proved "$mistake" || fail "$mistake: proved"
    found=$(grep -o 'error\[[a-z-]*\]' "$log" || true)
    [ -n "$found" ] && [ "$found" = "$expected" ] || fail "$mistake: not $expected"
    echo "$mistake: $found"
    is_proved "$mended" || fail "$mended: not proved"
    echo "$mended: proved"
done
