#!/bin/sh
# Compiles the Rust original over what stands in for the rest of it, twice.
#
#   tools/vectors/build.sh RUST WORK      writes WORK/checked, with overflow checks, and WORK/released, without
#
# RUST is the folder `src` of piccolo 0.3.3, WORK a folder that is there. Needs rustc (no registry).
set -eu
rust=$(cd "$1" && pwd)
work=$2
here=$(cd "$(dirname "$0")" && pwd)

# The original's files, unchanged, among those that stand in for the rest of it.
cp -r "$here/rust/src" "$work"
mkdir "$work/src/compiler"
for file in constant.rs raw_ops.rs types.rs compiler/lexer.rs thread/vm.rs; do
  cp "$rust/$file" "$work/src/$file"
done
rustc --edition 2021 --crate-type proc-macro --out-dir "$work" "$here/rust/crates/derives.rs"
for crate in gc_arena thiserror allocator_api2; do
  rustc --edition 2021 --crate-type rlib -L "$work" --extern derives --out-dir "$work" "$here/rust/crates/$crate.rs"
done
build() {
  name=$1
  shift
  rustc --edition 2021 --crate-name oracle "$@" -o "$work/$name" \
    -L "$work" --extern gc_arena --extern thiserror --extern allocator_api2 "$work/src/main.rs"
}
build checked -C opt-level=0 -C overflow-checks=on -C debug-assertions=on
build released -C opt-level=3 -C overflow-checks=off -C debug-assertions=off
