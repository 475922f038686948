#!/bin/sh
# Builds both cores, plays the same calls on them, and writes TABLE.md.
#
#   run.sh [--no-build] [--rounds N]                            all rows, into TABLE.md
#   run.sh [--no-build] [--rounds N] [--allocations] NAME..     some rows, and no file
#   run.sh [--no-build] [--rounds N] --from EVENTS [NAME..]     the same after so many events, as 4294967290
#
# Names are prefixes of rows, as a1 or h.
# --no-build takes what build_core.sh built last.
# --allocations also counts calls of malloc, calloc and realloc, in a build of its own.
set -eu
cd "$(dirname "$0")"
features= target=target build=yes rounds=9
while [ $# -gt 0 ]; do
    case $1 in
        --allocations) features='--features count' target=target/count ;;
        --no-build) build=no ;;
        --rounds) rounds=$2 && shift ;;
        *) break ;;
    esac
    shift
done
[ $build = no ] && [ -f out/libcore_calls.a ] && [ -f out/lock_calls ] || ./build_core.sh
RATTLE_KIT=$(dirname "$(rt doc)")
export RATTLE_KIT
cargo build --release --offline --quiet --jobs 2 --target-dir "$target" $features
if [ $# -gt 0 ] || [ -n "$features" ]; then
    exec "$target/release/core-bench" --rounds "$rounds" "$@"
fi
target/release/core-bench --rounds "$rounds" --keep out/seconds
if command -v valgrind > /dev/null; then
    ./profile.sh
    target/release/core-bench --table out/seconds out/instructions > out/TABLE.md
else
    echo "no valgrind: TABLE.md has no instructions"
    target/release/core-bench --table out/seconds > out/TABLE.md
fi
mv out/TABLE.md TABLE.md
