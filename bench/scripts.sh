#!/bin/sh
# How fast `sysmem run` answers scripts of 16 MiB of each kind, and a plain reader over the plain core.
#
#   scripts.sh [--explained] [--instructions] [KIND..]
#
# Kinds are those of scripts.py; with none, all are played. Both sides answer the same text, or it is told.
# The times are the best of three. --instructions counts them a line, in scripts of 1 MiB (valgrind).
# --explained plays scripts of 224 KiB, some 16,000 lines, by `explain` and `draw`, and has what `explain`
# wrote checked; for these there is no plain side.
# SYSMEM names the program, where it is not the one that `rt run` left in crates/sysmem_main/out.
set -eu
cd "$(dirname "$0")"
count=no explained=no
[ "${1:-}" != --explained ] || { explained=yes; shift; }
[ "${1:-}" != --instructions ] || { count=yes; shift; }
ours=${SYSMEM:-../crates/sysmem_main/out/sysmem_main}
[ -x "$ours" ] || (cd ../crates/sysmem_main && rt run -- --version)
cargo build --release --offline --quiet --manifest-path plain/Cargo.toml --target-dir target
plain=target/release/plain-script
room=$(mktemp -d)
trap 'rm -r "$room"' EXIT
[ $# -gt 0 ] || set -- $(python3 scripts.py)

answer() { # side, and what counts its instructions
    side=$1
    shift
    case $side in
        ours) "$@" "$ours" run --pages 1000 < "$room/script" ;;
        plain) "$@" "$plain" 1000 < "$room/script" ;;
        check) "$@" "$ours" check --pages 1000 < "$room/explain" ;;
        *) "$@" "$ours" "$side" --pages 1000 < "$room/script" ;;
    esac > "$room/$side"
}
best() { # side
    for turn in 1 2 3; do
        before=$(date +%s%N)
        answer "$1"
        echo $(($(date +%s%N) - before))
    done | sort -n | head -1
}
counted() { # side
    answer "$1" valgrind --tool=callgrind --callgrind-out-file=/dev/null 2>&1 | awk '/Collected/ { print $NF }'
}
cost() { # side
    if [ $count = yes ]; then counted "$1"; else best "$1"; fi
}
[ $count = yes ] && unit=instructions || unit=ns
if [ $explained = yes ]; then
    printf '%-10s %9s %10s %10s %10s   (%s a line)\n' kind lines explain draw check "$unit"
    for kind in "$@"; do
        python3 scripts.py "$kind" 229376 > "$room/script"
        lines=$(wc -l < "$room/script")
        printf '%-10s %9d' "$kind" "$lines"
        for side in explain draw check; do printf ' %10d' $(($(cost $side) / lines)); done
        echo
    done
    exit
fi
printf '%-10s %9s %10s %10s %8s %7s\n' kind lines "$unit" plain MiB/s ratio
for kind in "$@"; do
    [ $count = yes ] && size=1048576 || size=16777216
    python3 scripts.py "$kind" $size > "$room/script"
    lines=$(wc -l < "$room/script")
    answer ours
    answer plain
    cmp -s "$room/ours" "$room/plain" || echo "$kind: the answers differ"
    one=$(cost ours) other=$(cost plain)
    awk -v kind="$kind" -v lines="$lines" -v one="$one" -v other="$other" -v size=$size -v count=$count 'BEGIN {
        rate = count == "yes" ? "-" : sprintf("%.1f", size / 1048576 / (one / 1e9))
        printf "%-10s %9d %10.1f %10.1f %8s %7.1f\n", kind, lines, one / lines, other / lines, rate, one / other }'
done
