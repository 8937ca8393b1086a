#!/usr/bin/env bash
# Makes the image and the result of every rule in this folder again, and compares them with those that are kept.
#
#   examples/check.sh               compares; the exit status is 1 where something differs
#   examples/check.sh --run CMD     also gives each image to CMD and compares what it writes, as in --run ./deletion
#   examples/check.sh --update      writes images and results first
#
# What a rule is told stands in RULE.arguments, an argument in each line, as CMD takes it: CMD IMAGE ARGUMENT... Where there is no such file CMD has
# the image on standard input.
#
# The values of a result (lines b0) are what the real lua5.3 returns for the rule's source. Its first line (f0: answer, count, place and
# operand) is that of tools/oracle, which must agree with Lua on the values. Nothing in it comes from the program that --run names.
set -euo pipefail
here=$(dirname "$0")
tools=$here/../tools

run='' update=''
case "${1-} $#" in
    ' 0') ;;
    '--run 2') run=$2 ;;
    '--update 1') update=yes ;;
    *) echo "usage: $0 [--run CMD | --update]" >&2; exit 2 ;;
esac

scratch=$(mktemp -d)
trap 'rm -r "$scratch"' EXIT

# Arguments as values of Lua's: figures by lua5.3's own reading, so that an integer stays one, with all its bits.
literals() {
    lua5.3 -e '
        for i, text in ipairs(arg) do
            local number = tonumber(text)
            if number then text = string.format(math.type(number) == "integer" and "0x%x" or "%a", number) end
            assert(number or text == "nil" or text == "true" or text == "false", text)
            io.write(i > 1 and ", " or "", text)
        end' - "$@" </dev/null
}

# What lua5.3 returns for a rule that is told these arguments, as lines of b0.
values() { # RULE ARGUMENT...
    local rule=$1
    shift
    { printf 'return (function(...) '; cat "$rule"; printf '\nend)(%s)\n' "$(literals "$@")"; } > "$scratch/1.lua"
    lua5.3 "$tools/luac/run.lua" "$scratch" 1 | tr ' ' '\n' | sed -n '/^b0/p'
}

failed=0
same() {
    local what=$1 kept=$2 made=$3
    if ! diff -u "$kept" "$made"; then
        echo "$kept: $what differs" >&2
        failed=1
    fi
}

count=0
for rule in "$here"/*.lua; do
    kept=${rule%.lua}
    image=$scratch/image result=$scratch/result foretold=$scratch/foretold answer=$scratch/answer
    "$tools/lua2image/lua2image" "$rule" -o "$image"
    told=()
    if [ -f "$kept.arguments" ]; then mapfile -t told < "$kept.arguments"; fi
    "$tools/oracle/session" "${told[@]}" < "$image" > "$foretold"
    { head -n 1 "$foretold"; values "$rule" "${told[@]}"; } > "$result"
    if [ "$update" ]; then
        cp "$image" "$kept.image"
        cp "$result" "$kept.result"
    fi
    same 'the image' "$kept.image" "$image"
    same 'the result' "$kept.result" "$result"
    same "the oracle's answer" "$kept.result" "$foretold"
    if [ "$run" ]; then
        if [ ${#told[@]} = 0 ]; then
            $run < "$kept.image" > "$answer" || true
        else
            $run "$kept.image" "${told[@]}" > "$answer" || true
        fi
        same "the answer of $run" "$kept.result" "$answer"
    fi
    count=$((count + 1))
done
[ "$failed" = 0 ] && echo "$count rules: images and results as kept${run:+, and as $run answers}"
exit "$failed"
