#!/bin/sh
# Makes the strings and the operators' results again, and holds them against the Rust too.
#
#   tools/figures/make.sh RUST            writes crates/strings/stdin and stdout, and tools/figures/differences.md
#   tools/figures/make.sh RUST --check    writes nothing, and fails where one of the three would change
#
# RUST is the folder `src` of piccolo 0.3.3. Needs lua5.3, lua5.4, rustc (no registry) and python3.
set -eu
here=$(cd "$(dirname "$0")" && pwd)
work=$(mktemp -d)
trap 'rm -r "$work"' EXIT

"$here/../vectors/build.sh" "$1" "$work"
python3 -B "$here/cases.py" --rust "$work" ${2+"$2"}
