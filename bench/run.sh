#!/usr/bin/env bash
# Times this library's CompactString beside the String of Rust and that of the kit.
#
#   bench/run.sh [FOLDER]
#
# Needs `rt`, `rustc` and `objcopy`. Proves and builds what it times, and prints a line for each row, then the tables.
# From nothing the proofs take twelve to twenty minutes on four processors. The status is 1 if two types differ in a
# checksum. The head of main.rs has the environment, as BENCH_ONLY='push drain/ascii' and BENCH_TURNS=3.
#
# FOLDER has the source of the Rust crate compact_str, as a cargo package, to time that crate too; this needs `cargo`.
# Cargo runs in FOLDER, so that the settings of a `.cargo/config.toml` in or above it hold, such as a folder with its
# dependencies, except for `rustflags`. Nothing is written there.
#
# The figures also go to docs/speed.txt, and as a picture to docs/speed.svg, if all rows ran in all turns.
#
# Each function of the library, of the program and of the Rust crate is aligned to 64 bytes. Compilers align functions
# to 16, so that a loop of 21 bytes lies in one line of a processor's decoded instructions or in two, depending on
# where the linker happens to place it: the same code takes up to a quarter longer. With BENCH_AS_LINKED=1 all
# functions stay where the linker places them, and the figures go to docs/speed_as_linked.txt.
#
# Builds in bench/out and in the out/ folders of the crates.
set -eu

bench=$(cd "$(dirname "$0")" && pwd)
built=$bench/out
crate=${1:+$(cd "$1" && pwd)}
mkdir -p "$built"

# The static library, and the functions of the kit by which it allocates. `rt` keeps an existing library if only bodies
# of the crates below have changed, so remove an earlier one.
echo 'proving and building the static library' >&2
library=$bench/../crates/compact_bench/out/libcompact_bench.a
rm -f "$library"
if ! (cd "$bench/../crates/compact_bench" && rt lib) >"$built/rt.log" 2>&1; then
    cat "$built/rt.log" >&2
    exit 1
fi
docs=$(cd "$bench/../docs" && pwd)
place=()
if [ -z "${BENCH_AS_LINKED:-}" ]; then
    objcopy --set-section-alignment '.text*=64' "$library" "$built/libcompact_bench.a"
    library=$built/libcompact_bench.a
    place=(-C llvm-args=-align-all-functions=6)
    export BENCH_TO=$docs/speed.txt BENCH_PICTURE=$docs/speed.svg
else
    export BENCH_TO=$docs/speed_as_linked.txt
fi
link=(-C "link-arg=$library" -C "link-arg=$(dirname "$(rt doc)")/c/liblibc_c.a")
processor=$(sed -n 's/^model name[^:]*: *//p' /proc/cpuinfo | head -n 1)
numbers=$(sed -n 's/^cpu family[^:]*: */family /p; s/^model[[:space:]]*: */, model /p' /proc/cpuinfo | head -n 2 | tr -d '\n')
BENCH_TOLD="$(date -u +%F), ${processor:-a processor with no name}${numbers:+ ($numbers)}"
export BENCH_TOLD

if [ -z "$crate" ]; then
    rustc --edition 2024 -C opt-level=3 -C codegen-units=1 -C lto=fat "${place[@]}" "${link[@]}" -o "$built/bench" "$bench/main.rs"
    exec "$built/bench"
fi

cat >"$built/Cargo.toml" <<END
[package]
name = "bench"
version = "0.0.0"
edition = "2024"

[[bin]]
name = "bench"
path = "../main.rs"

[features]
peer = []

[dependencies]
bytes = "1"
compact_str = { path = "$crate", features = ["bytes"] }

[profile.release]
opt-level = 3
codegen-units = 1
lto = "fat"

[workspace]
END
cd "$crate"
# Cargo does not check the files that a link argument names, and would keep a program with an earlier library in it.
rm -rf "$built"/target/release/.fingerprint/bench-*
RUSTFLAGS="${RUSTFLAGS:-} ${place[*]}" cargo rustc -q --release --features peer --manifest-path "$built/Cargo.toml" --target-dir "$built/target" -- "${link[@]}"
exec "$built/target/release/bench"
