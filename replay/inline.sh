#!/usr/bin/env bash
# Makes the random edits of inline texts with Rust's String, and stores the output.
#
#   replay/inline.sh
#
# The output of replay/inline.rs goes to crates/compact_edit_tests/src/inline_edits/ends.rt, which the tests of that
# crate compare with. Needs `rustc`. Builds in replay/out.
set -eu

replay=$(cd "$(dirname "$0")" && pwd)
ends=$replay/../crates/compact_edit_tests/src/inline_edits/ends.rt
mkdir -p "$replay/out"
rustc -O --edition 2024 -o "$replay/out/inline" "$replay/inline.rs"
{
    sed '/^pub const/q' "$ends"
    "$replay/out/inline" | sed 's/$/\\n\\/; $s/\\$/";/'
} >"$replay/out/ends.rt"
cp "$replay/out/ends.rt" "$ends"
