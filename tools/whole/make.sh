#!/bin/sh
# Runs whole images through the Rust original and holds it against the oracle.
#
#   tools/whole/make.sh RUST            writes tools/whole/differences.md and tools/whole/answers.txt
#   tools/whole/make.sh RUST --check    writes nothing, and fails where one of the two would change
#
# RUST is the folder `src` of piccolo 0.3.3. Needs rustc (no registry) and python3.
set -eu
here=$(cd "$(dirname "$0")" && pwd)
work=$(mktemp -d)
trap 'rm -r "$work"' EXIT

"$here/../vectors/build.sh" "$1" "$work"
python3 -B "$here/compare.py" "$work"
if [ "${2-}" = --check ]; then
  cmp "$work/differences.md" "$here/differences.md"
  cmp "$work/answers.txt" "$here/answers.txt"
else
  cp "$work/differences.md" "$work/answers.txt" "$here"
fi
