#!/usr/bin/env bash
# Plants mistakes, each in a copy of the repository, and reports whether the tests named for it fail.
#
#   mistakes/try.sh [--quick] [NAME..]
#
# NAME is a file NAME.mistake beside this script; the default is all. Each names a crate and a file of it, and has
# pairs of lines `old:` and `new:`; each old text must occur exactly once in that file. It may name more files, as one
# whose answers cite the names of the body. A line `fails:` names a crate of tests and a test that must fail; there may
# be several. `rt test` proves the mistaken crate, those above it and the tests before it runs them, so a failing test
# also shows that no proof refused the mistake.
#
# --quick runs the tests by `rt try`, before any proof, in one to three minutes each. It skips a mistake with a line
# `needs:`, whose test takes all memory and always fails there.
#
# The output of `rt` is in mistakes/out/NAME.log. The status is 0 if each mistake tried was found as it says.
set -eu

here=$(cd "$(dirname "$0")" && pwd)
root=$(dirname "$here")
quick=no
kept=()
if [ "${1-}" = --quick ]; then
    quick=yes
    kept=(--exclude=out)
    shift
fi
if [ $# -eq 0 ]; then
    set -- "$here"/*.mistake
fi

# The value of a key of a mistake.
told() {
    sed -n "s/^$2: //p" "$1"
}

# Runs the tests of the crate that must find a mistake.
run_tests() {
    if [ $quick = yes ]; then
        rt try --test
    else
        rt test
    fi
}

# Prints the tests that found a planted mistake, or fails if one of them did not.
judge() {
    local name=$1 mistake=$here/$1.mistake log=$here/out/$1.log tests test
    for tests in $(told "$mistake" fails | cut -d' ' -f1 | sort -u); do
        (cd "$copy/crates/$tests" && run_tests) || true
    done >"$log" 2>&1
    while read -r tests test; do
        grep -q "^test $test \.\.\. FAILED" "$log" || return 1
        echo "$name: found by $test of $tests"
    done < <(told "$mistake" fails)
}

copy=$(mktemp -d)
trap 'rm -rf "$copy"' EXIT
tar -C "$root" "${kept[@]}" -cf - crates crates.txt HANDLES | tar -C "$copy" -xf -
mkdir -p "$here/out"
status=0
for name in "$@"; do
    name=$(basename "$name" .mistake)
    mistake=$here/$name.mistake
    if [ $quick = yes ] && grep -q '^needs: ' "$mistake"; then
        echo "$name: left out"
        continue
    fi
    python3 "$here/plant.py" "$mistake" "$copy/crates"
    if ! judge "$name"; then
        echo "$name: NOT FOUND; see $here/out/$name.log"
        status=1
    fi
    crate=crates/$(told "$mistake" crate)
    for file in $(told "$mistake" file); do
        cp "$root/$crate/$file" "$copy/$crate/$file"
    done
done
exit $status
