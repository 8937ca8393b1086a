#!/bin/sh
# Makes the vectors again.
#
#   tools/vectors/make.sh RUST            writes crates/vectors/stdin and stdout, and tools/vectors/differences.md
#   tools/vectors/make.sh RUST --check    writes nothing, and fails where one of the three would change
#
# RUST is the folder `src` of piccolo 0.3.3. Needs lua5.3, lua5.4, rustc (no registry) and python3.
set -eu
here=$(cd "$(dirname "$0")" && pwd)
kept=$here/../../crates/vectors
work=$(mktemp -d)
trap 'rm -r "$work"' EXIT

for lua in lua5.3 lua5.4; do
  "$lua" "$here/lua_vectors.lua" > "$work/$lua.list"
done
"$here/build.sh" "$1" "$work"
for name in checked released; do
  "$work/$name" lists "$here" > "$work/$name.list"
  "$work/$name" loops "$here" > "$work/$name.loops"
  "$work/$name" facts > "$work/$name.facts"
done

python3 -B "$here/compare.py" "$work"
if [ "${2-}" = --check ]; then
  cmp "$work/stdin" "$kept/stdin"
  cmp "$work/stdout" "$kept/stdout"
  cmp "$work/differences.md" "$here/differences.md"
else
  mkdir -p "$kept"
  cp "$work/stdin" "$work/stdout" "$kept"
  cp "$work/differences.md" "$here"
fi
