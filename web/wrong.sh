#!/bin/sh
# Tries wrong exports: the prover must refuse each edit of page_calls/wrong. The last line counts.
#   wrong.sh [EDIT..]     needs rt and python3, and what build.sh has built
set -eu
cd "$(dirname "$0")"
kit=$(dirname "$(rt doc)")
out=$PWD/out
. ../tools/static_library.sh
libraries=$(all_of "script_explain script_draw outcome_runs")
[ $# -gt 0 ] || set -- page_calls/wrong/*.edit
refused=0
for edit in "$@"; do
    crate_of page_calls
    ../tools/edits_apply.py --make "$room" "$edit"
    if (lower "$room" page_calls "$libraries" "$kit/toolchain" src/lib.rt "$out/wrong.a" --crate-type staticlib) > "$out/wrong.log"; then
        said='NOT REFUSED'
    elif grep -q '^logic=not-proved' "$out/page_calls.log"; then
        said="refused: $(grep -m 1 -E ': error|is not proved' "$out/page_calls.log" | cut -c 1-150)"
        refused=$((refused + 1))
    else
        said='BAD EDIT: it did not reach the prover'
    fi
    rm -r "$room"
    room=
    echo "$(basename "$edit" .edit): $said"
done
echo "$refused passed, $(($# - refused)) failed"
[ "$refused" = $# ]
