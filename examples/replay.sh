#!/bin/sh
# What recordings of examples/recorder are for. TABLES is the folder in which the recorder left its tables.
#
#     replay.sh requests TABLES RECORDING SERVICE OPERATION    the AWS Query requests of an operation's recorded inputs
#     replay.sh compare TABLES FIRST SECOND                    each line at which two recordings of one test differ, and the path
#
# requests calls smithy_transcode of the path, or what SMITHY_TRANSCODE names. compare needs the Python package smithy_transcode.
# It ends with 0 where the recordings are the same, and else with 40.
set -eu
program=${SMITHY_TRANSCODE:-smithy_transcode}

requests() {
    table=$1/$3/$4.input
    chosen="-v service=$3 -v operation=$4"
    # the names of services and operations have no spaces
    # shellcheck disable=SC2086
    version=$(awk -F'\t' $chosen '$1 == service && $2 == operation && sub(/^query [^ ]* /, "", $4) { print $4; exit }' "$2")
    # shellcheck disable=SC2086
    awk -F'\t' $chosen '$1 == service && $2 == operation && $3 == "input" && $5 == "recorded" { print $6 }' "$2" |
        "$program" replay "$table" "$(sed -n '/^structure /{s///p;q;}' "$table")" "$4" "$version"
}

case $#:${1-} in
    5:requests) "$@" ;;
    4:compare) exec python3 "$(dirname "$0")/recorder/compare.py" "$2" "$3" "$4" ;;
    *) sed -n '2,/^$/{/^#/p;}' "$0"; exit 2 ;;
esac
