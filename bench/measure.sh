#!/bin/sh
# Measures the program on large bodies: MB/s of input and peak memory, three runs each, beside `jq -c .`
# where that is installed. It needs python3 and GNU time. Usage: bench/measure.sh
set -eu
top=$(cd "$(dirname "$0")/.." && pwd)
work=$(mktemp -d)
trap 'rm -rf "$work"' EXIT
program=$top/crates/smithy_transcode_cli/out/smithy_transcode_cli
[ -x "$program" ] || (cd "$top/crates/smithy_transcode_cli" && rt run >/dev/null)
python3 "$top/bench/bodies.py" "$work"

# lines for a body, from wire to wire: seconds of user and system time, kilobytes at the peak
run() {
    name=$1 table=$2 body=$3 from=$4 to=$5
    bytes=$(wc -c <"$body")
    for tool in ours jq; do
        case $tool in
        ours) set -- "$program" transcode "$table" S "$from" "$to" ;;
        jq) [ "$from$to" = jsonjson ] && command -v jq >/dev/null || continue; set -- jq -c . ;;
        esac
        for turn in 1 2 3; do
            /usr/bin/time -f '%U %S %M' -o "$work/time" "$@" <"$body" >"$work/out"
            read -r user system peak <"$work/time"
            echo "$name $from $to $tool $bytes $user $system $peak" | awk '{ t = $6 + $7; if (t == 0) t = 0.01; printf "%-20s %-4s to %-4s %-5s %7.0f MB/s  peak %6.0f MB\n", $1, $2, $3, $4, $5 / t / 1000000, $8 / 1000 }'
        done
    done
}

run unknown_members "$work/long.table" "$work/unknown_members.json" json json
run many_members "$work/many.table" "$work/many_members.json" json json
run small_structures "$work/points.table" "$work/points.json" json json
run list_of_integers "$work/lists.table" "$work/integers.json" json json
run list_of_strings "$work/lists.table" "$work/strings.json" json json
run long_strings "$work/lists.table" "$work/long_strings.json" json json
run many_escapes "$work/lists.table" "$work/escapes.json" json json
run small_structures "$work/points.table" "$work/points.json" json cbor
run list_of_integers "$work/lists.table" "$work/integers.json" json cbor
run list_of_strings "$work/lists.table" "$work/strings.json" json cbor
run list_of_integers "$work/lists.table" "$work/integers.cbor" cbor json
run list_of_strings "$work/lists.table" "$work/strings.cbor" cbor json
run one_byte_integers "$work/lists.table" "$work/small.cbor" cbor json
run one_byte_integers "$work/lists.table" "$work/small.cbor" cbor cbor
