#!/bin/sh
# Builds the library crates that are named in crates.txt, where they have changed, and over them the
# static library core_calls, into out/libcore_calls.a, and the program lock_calls, into
# out/lock_calls. With --built it takes the crates that `rt ci` left. More words go to `rattle build`.
#
#   build_core.sh [--built] [--only core_calls|lock_calls] [WORD..]
set -eu
cd "$(dirname "$0")"
kit=$(dirname "$(rt doc)")
out=$PWD/out
toolchain=${CORE_TOOLCHAIN:-$kit/toolchain}
only= built=
if [ "${1:-}" = --built ]; then
    built=1
    shift
fi
if [ "${1:-}" = --only ]; then
    only=$2
    shift 2
fi
mkdir -p "$out"
. ../tools/static_library.sh

chosen() { # name
    [ -z "$only" ] || [ "$only" = "$1" ]
}

if chosen core_calls; then
    build core_calls lifetime_core "$toolchain" src/lib.rt "$out/libcore_calls.a" \
        --links core_calls=c --crate-type staticlib "$@"
fi
if chosen lock_calls; then
    build lock_calls client_ends "$toolchain" src/main.rt "$out/lock_calls.o" "$@"
    "$kit/bin/rattle-link" --target x86_64-unknown-linux-gnu --toolchain "$kit/toolchain" \
        -o "$out/lock_calls" "$out/lock_calls.o" "$kit/c/libos_c.a" "$kit/c/liblibc_c.a"
fi
