#!/usr/bin/env bash
# Makes the stored lines of the program, and the Rust crate's answers to them.
#
#   replay/make.sh FOLDER [SEED [COUNT]]
#
# FOLDER has the source of the Rust crate compact_str 0.10.0, as a cargo package whose dependencies cargo finds. Needs
# `cargo`. Writes COUNT lines (20000) of the generator with this seed (1) to crates/compact_replay/stdin, and the
# answers to crates/compact_replay/stdout. `rt ci` runs that program on the first and compares with the second. Builds
# in replay/out; writes nothing in FOLDER.
set -eu

replay=$(cd "$(dirname "$0")" && pwd)
program=$replay/../crates/compact_replay
crate=$(cd "$1" && pwd)
mkdir -p "$replay/out"
cat >"$replay/out/Cargo.toml" <<END
[package]
name = "replay"
version = "0.0.0"
edition = "2024"

[[bin]]
name = "replay"
path = "../main.rs"

[dependencies]
compact_str = { path = "$crate", features = ["zeroize"] }
zeroize = "1"

[workspace]
END
cd "$crate"
cargo build -q --release --manifest-path "$replay/out/Cargo.toml" --target-dir "$replay/out/target"
exec "$replay/out/target/release/replay" make "${2:-1}" "${3:-20000}" "$program/stdin" "$program/stdout"
